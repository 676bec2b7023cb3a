// Fields of forms. Each is {spec, row, input, error, read, set}: its row of elements, what was typed as {value} or {fault}.
import {h} from './dom.js';
import {say} from './words.js';
import {parseAmount, parseNumber, showAmount} from './amounts.js';

let serial = 0;

/**
 * A field {name, label, kind, ..}. Kinds: 'number' and 'amount' with least and most, 'text' with pattern and fault, 'choice'
 * with options [value, label, class, letter], of which none is chosen where `value` is none, which `fault` says; 'pick' with
 * options in a list, 'tick'. `tucked` is a line that opens to the field.
 * @returns {DeskField}
 */
export function field(/** @type {FieldSpec} */ spec) {
  serial += 1;
  const id = `field-${serial}`;
  if (spec.kind === 'choice') return choiceField(spec, id);
  const error = h('p', {id: `${id}-error`, class: 'error'});
  const hint = spec.hint ? h('p', {id: `${id}-hint`, class: 'hint'}, spec.hint) : null;
  const input = /** @type {HTMLInputElement} */ (inputOf(spec, id, hint ? `${error.id} ${hint.id}` : error.id));
  const inner = h('div', {class: 'field', 'data-name': spec.name}, h('label', {for: id}, spec.label), input, hint, error);
  const row = spec.tucked ? h('details', {}, h('summary', {}, spec.tucked), inner) : inner;
  const set = value => {
    input.value = value ?? '';
    if (row instanceof HTMLDetailsElement) row.open = false;
  };
  return {spec, row, input, error, read: () => readOf(spec, input), set};
}

function choiceField(spec, id) {
  const error = h('p', {id: `${id}-error`, class: 'error'});
  const row = h('fieldset', {'data-name': spec.name, 'aria-describedby': error.id}, h('legend', {}, spec.label),
    h('div', {class: 'choices'}, spec.options.map(option => optionOf(option, spec, id))),
    error);
  const read = () => {
    const value = /** @type {HTMLInputElement | null} */ (row.querySelector('input:checked'))?.value ?? null;
    return value === null && spec.fault ? {fault: spec.fault} : {value};
  };
  const set = value => { for (const radio of row.querySelectorAll('input')) radio.checked = radio.value === value; };
  return {spec, row, input: row.querySelector('input'), error, read, set};
}

function optionOf([value, label, mark, letter], spec, id) {
  return h('label', {class: `choice ${mark ?? ''}`},
    h('input', {type: 'radio', name: id, value, checked: value === spec.value, 'aria-keyshortcuts': letter}),
    h('span', {}, label, letter ? h('kbd', {'aria-hidden': 'true'}, letter) : null));
}

function inputOf(spec, id, describedBy) {
  if (spec.kind === 'pick') {
    return h('select', {id, 'aria-describedby': describedBy},
      spec.options.map(([value, label]) => h('option', {value, selected: value === spec.value}, label)));
  }
  if (spec.kind === 'tick') return h('input', {id, type: 'checkbox', checked: spec.value === true});
  return h('input', {
    id, type: 'text', class: spec.kind, value: spec.value ?? '', 'aria-describedby': describedBy,
    autocomplete: 'off', spellcheck: 'false', maxlength: spec.kind === 'text' ? 200 : 24,
    inputmode: {amount: 'decimal', number: 'numeric'}[spec.kind],
  });
}

function readOf(spec, input) {
  if (spec.kind === 'tick') return {value: input.checked};
  const text = input.value;
  if (spec.kind === 'pick') return {value: text};
  if (text.trim() === '' && spec.optional) return {value: null};
  if (spec.kind === 'amount') {
    const {cents, fault} = parseAmount(text, spec);
    return {value: cents, fault};
  }
  if (spec.kind === 'number') {
    const {number, fault} = parseNumber(text, spec);
    return {value: number, fault};
  }
  return spec.pattern.test(text) ? {value: text} : {fault: spec.fault};
}

// The fields that many forms have.
export const account = (more = {}) => field({name: 'account', label: say('account'), kind: 'number', ...more});
export const amount = (more = {}) => field({
  name: 'amount', label: say('amount'), kind: 'amount', hint: say('amount.hint', {example: showAmount(2500)}), least: 1, most: 999999,
  ...more,
});
export const branchField = (/** @type {Desk} */ desk) => field({
  name: 'branch', label: say('branch'), kind: 'number', value: desk.place.branch ?? '',
});
export const release = () => field({
  name: 'release', label: say('end.release'), kind: 'number', most: 100000, optional: true, tucked: say('release.tucked'),
});

export const purpose = () => field({
  name: 'purpose', label: say('purpose'), kind: 'text', pattern: /^[^\p{Cc}]{0,200}$/u, fault: say('purpose.fault'), optional: true,
  tucked: say('purpose.tucked'),
});

/** An amount in a sentence that is not whole yet. */
export const amountText = (/** @type {number | null} */ cents) => (cents === null ? null : showAmount(cents));
