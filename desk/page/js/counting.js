// A field of counted cash: by notes and coins, or typed as one amount. Enter goes on to the next denomination.
import {h} from './dom.js';
import {say} from './words.js';
import {countCash, parseAmount, showAmount} from './amounts.js';
import {DENOMINATIONS} from './settings.js';

const MOST = 999999999;

/** What was counted as {value} or {fault}. Where both are there, they have to agree. */
function countedValue(texts, typed) {
  const isTyped = typed.trim() !== '';
  if (texts.every(text => text.trim() === '')) {
    if (!isTyped) return {fault: say('counting.none', {none: showAmount(0)})};
    const {cents, fault} = parseAmount(typed, {most: MOST});
    return {value: cents, fault};
  }
  const {cents, fault, at} = countCash(texts);
  if (fault) return {fault: say('counting.at', {worth: showAmount(DENOMINATIONS[at]), fault})};
  if (isTyped && parseAmount(typed).cents !== cents) {
    return {fault: say('counting.differs', {sum: showAmount(cents), typed: typed.trim()})};
  }
  if (cents > MOST) return {fault: say('counting.most', {sum: showAmount(cents), most: showAmount(MOST)})};
  return {value: cents};
}

function sumText(text, denomination) {
  if (text.trim() === '') return '';
  const {cents} = countCash([text], [denomination]);
  return cents === undefined ? '?' : showAmount(cents);
}

/** @returns {DeskField} */
export function counting(/** @type {string} */ name, /** @type {string} */ label) {
  const total = h('output', {class: 'figure', 'data-name': 'total'}, '…');
  const inputs = DENOMINATIONS.map(worth => h('input', {
    type: 'text', inputmode: 'numeric', autocomplete: 'off', maxlength: 6, class: 'count', keydown: next,
    'aria-label': say('counting.many', {worth: showAmount(worth)}), 'aria-describedby': `${name}-hint ${name}-error`,
  }));
  const sums = DENOMINATIONS.map(() => h('output', {class: 'sum'}, ''));
  const error = h('p', {class: 'error', id: `${name}-error`});
  const typed = h('input', {
    type: 'text', inputmode: 'decimal', autocomplete: 'off', maxlength: 24, class: 'amount', id: `${name}-typed`,
    'aria-describedby': error.id,
  });

  /** Enter, on the keypad, too, goes on, and after the last sends; with Ctrl it sends from each. */
  function next(event) {
    const at = inputs.indexOf(event.target);
    if (event.key !== 'Enter') return;
    event.preventDefault();
    if (event.ctrlKey || at === inputs.length - 1) event.target.form.requestSubmit();
    else inputs[at + 1].focus();
  }

  const read = () => countedValue(inputs.map(input => input.value), typed.value);
  function showSums() {
    inputs.forEach((input, at) => { sums[at].textContent = sumText(input.value, DENOMINATIONS[at]); });
    const {value} = read();
    total.textContent = value === undefined ? '…' : showAmount(value);
  }

  const lines = DENOMINATIONS.map((worth, at) => h('div', {class: 'denomination'},
    h('span', {class: 'worth'}, showAmount(worth)), h('span', {'aria-hidden': 'true'}, '×'), inputs[at], sums[at]));
  const row = h('fieldset', {class: 'counting', 'data-name': name, input: showSums}, h('legend', {}, label),
    h('div', {class: 'denominations'}, lines),
    h('div', {class: 'sums'},
      h('div', {}, h('label', {for: typed.id}, say('counting.whole')), typed),
      h('div', {}, h('span', {class: 'label'}, say('receipt.counted')), total)),
    h('p', {class: 'hint', id: `${name}-hint`}, say('counting.keys')), error);
  const set = () => {
    for (const input of [...inputs, typed]) input.value = '';
    showSums();
  };
  return {spec: {name, label, kind: 'count'}, row, input: inputs[0], error, read, set};
}
