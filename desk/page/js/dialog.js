// Questions that come before what can't be taken back.
import {h, button} from './dom.js';
import {parseNumber} from './amounts.js';
import {say} from './words.js';

/** The shortest text that says why. */
const SHORTEST = 3;

/**
 * Shows a dialog that `fill(close)` fills, and returns what it is closed with: '' where nothing is to be done, or where another
 * is open, as after two clicks. The focus then returns to where it was.
 */
function asked(question, fill) {
  if (document.querySelector('dialog')) return Promise.resolve('');
  const before = /** @type {HTMLElement | null} */ (document.activeElement);
  return new Promise(resolve => {
    const closed = () => {
      box.remove();
      if (document.activeElement === document.body) before?.focus?.();
      resolve(box.returnValue);
    };
    const box = h('dialog', {class: 'sure', 'aria-labelledby': 'question', close: closed}, h('h2', {id: 'question'}, question));
    box.append(...fill(value => box.close(value)));
    document.body.append(box);
    box.showModal();
  });
}

/** Asks once more: `lines` say why. The focus is on No. */
export async function confirmed(question, yes, lines = [], no = say('dialog.no')) {
  return await asked(question, close => [lines.map(line => h('p', {}, line)), h('div', {class: 'buttons'},
    button(no, () => close('')), button(yes, () => close('yes'), {class: 'danger'}))].flat()) === 'yes';
}

/** A field of a dialog: its row, and what was typed, which `read` turns into {value} or {fault}. */
function dialogField(name, label, attributes, read) {
  const error = h('p', {id: `${name}-error`, class: 'error'});
  const input = h('input', {id: name, type: 'text', autocomplete: 'off', 'aria-describedby': error.id, ...attributes});
  const row = h('div', {class: 'field', 'data-name': name}, h('label', {for: name}, label), input, error);
  return {row, value() {
    const {value, fault} = read(input.value.trim());
    error.textContent = fault ?? '';
    if (fault === undefined) input.removeAttribute('aria-invalid');
    else input.setAttribute('aria-invalid', 'true');
    return value;
  }, focus: () => input.focus()};
}

const reasonField = () => dialogField('reason', say('dialog.reason'), {class: 'text', maxlength: 200},
  text => (text.length >= SHORTEST ? {value: text} : {fault: say('dialog.reason.fault')}));

function colleagueField() {
  const read = text => {
    const {number, fault} = parseNumber(text, {most: 9999});
    return {value: number, fault};
  };
  return dialogField('colleague', say('dialog.colleague'), {class: 'number', inputmode: 'numeric', maxlength: 4}, read);
}

/** A form of a dialog over these fields, which is closed with their values once all are sound. */
function dialogForm(fields, close, yes) {
  const submit = event => {
    event.preventDefault();
    const values = fields.map(field => field.value());
    const wrong = values.findIndex(value => value === undefined);
    if (wrong < 0) close(JSON.stringify(values));
    else fields[wrong].focus();
  };
  return h('form', {novalidate: true, submit}, fields.map(field => field.row),
    h('div', {class: 'buttons'}, button(say('dialog.no'), () => close('')), h('button', {type: 'submit', class: 'danger'}, yes)));
}

/** Asks for a reason, and returns it, or '' where nothing is to be done. */
export async function reasonFor(question, text, yes) {
  const answer = await asked(question, close => [h('p', {}, text), dialogForm([reasonField()], close, yes)]);
  return answer === '' ? '' : JSON.parse(answer)[0];
}

/** Asks for a reason and a colleague's user number, and returns {reason, colleague}, or null where nothing is to be done. */
export async function witnessFor(question, lines, yes) {
  const fill = close => [...lines.map(line => h('p', {}, line)), dialogForm([reasonField(), colleagueField()], close, yes)];
  const answer = await asked(question, fill);
  if (answer === '') return null;
  const [reason, colleague] = JSON.parse(answer);
  return {reason, colleague};
}
