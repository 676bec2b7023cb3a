// What was typed on a screen and not sent yet is there again when the screen is.

/** @typedef {{name: string, values: (string | boolean)[]}} Typed What stands in the inputs of a field. */

/** @type {Map<string, Typed[]>} */
const drafts = new Map();

const inputsOf = (/** @type {HTMLElement} */ row) => /** @type {HTMLInputElement[]} */ ([...row.querySelectorAll('input, select')]);
const rowsOf = (/** @type {HTMLElement} */ room) => /** @type {HTMLElement[]} */ ([...room.querySelectorAll('[data-name]')])
  .filter(row => inputsOf(row).length > 0);
const isMark = (/** @type {HTMLInputElement} */ input) => input.type === 'radio' || input.type === 'checkbox';
const isText = (/** @type {HTMLInputElement} */ input) => !isMark(input) && input.tagName === 'INPUT';

/** Keeps what stands in the fields of a screen if it was typed, or filled in by an address, and not sent since. */
export function keepDraft(/** @type {string} */ id, /** @type {HTMLElement} */ room, /** @type {boolean} */ isFilledIn) {
  const typed = room.querySelector('form')?.dataset.typed;
  const rows = rowsOf(room);
  const hasText = rows.flatMap(inputsOf).some(input => isText(input) && input.value !== '');
  if (!hasText || !(typed === 'yes' || (isFilledIn && typed === undefined))) return void drafts.delete(id);
  return void drafts.set(id, rows.map(row => ({
    name: row.dataset.name, values: inputsOf(row).map(input => (isMark(input) ? input.checked : input.value)),
  })));
}

/** Keeps nothing of a screen. */
export const forgetDraft = (/** @type {string} */ id) => drafts.delete(id);

/** Puts it there again. What a field shows may hang on one before it, so each is looked for once those are filled in. */
export function restoreDraft(/** @type {string} */ id, /** @type {HTMLElement} */ room) {
  for (const {name, values} of drafts.get(id) ?? []) {
    const row = rowsOf(room).find(one => one.dataset.name === name);
    const inputs = row ? inputsOf(row) : [];
    if (inputs.length === values.length) inputs.forEach((input, at) => put(input, values[at]));
    for (const type of ['input', 'change']) inputs[0]?.dispatchEvent(new Event(type, {bubbles: true}));
  }
}

function put(/** @type {HTMLInputElement} */ input, /** @type {string | boolean} */ value) {
  if (typeof value === 'boolean') input.checked = value;
  else input.value = value;
  const fold = input.closest('details');
  if (fold && value !== '') fold.open = true;
}
