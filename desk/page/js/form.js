// Forms for the keyboard: Enter sends, a wrong field says so beside itself and gets the focus.
import {h} from './dom.js';
import {say} from './words.js';

/** After how many milliseconds a form says that it waits. */
const SLOW = 2000;

function showFault(field, fault) {
  field.error.textContent = fault ?? '';
  if (fault && field.spec.tucked) field.row.open = true;
  if (fault) field.input.setAttribute('aria-invalid', 'true');
  else field.input.removeAttribute('aria-invalid');
}

/** How a form shows that what it sent is under way: by its button, and by a line where that takes long. */
function makeProgress(submit) {
  const line = h('p', {class: 'hint', role: 'status'});
  let slow = null;
  return {
    line,
    isBusy: () => slow !== null,
    begin() {
      submit.setAttribute('aria-disabled', 'true');
      slow = setTimeout(() => { line.textContent = say('form.slow'); }, SLOW);
    },
    end() {
      clearTimeout(slow);
      slow = null;
      line.textContent = '';
      submit.removeAttribute('aria-disabled');
    },
  };
}

/** What was typed, by field, or null where a field is wrong: the first such gets the focus. */
function soundValues(/** @type {DeskField[]} */ fields) {
  const values = {};
  let wrong = null;
  for (const field of fields) {
    const {value, fault} = field.row.hidden ? {value: null, fault: undefined} : field.read();
    showFault(field, fault);
    if (fault) wrong ??= field;
    values[field.spec.name] = value;
  }
  wrong?.input.focus();
  wrong?.input.select?.();
  return wrong ? null : values;
}

/** What was typed so far, by field, with null where it is not sound. */
function typedValues(/** @type {DeskField[]} */ fields) {
  return Object.fromEntries(fields.map(field => {
    const {value, fault} = field.read();
    return [field.spec.name, fault ? null : value];
  }));
}

/** Chooses what has this letter, in the first choice that has it; whether one has. In a field of text a letter is a letter. */
function chosenBy(/** @type {DeskField[]} */ fields, /** @type {any} */ {key, target, ctrlKey, altKey, metaKey}) {
  if (ctrlKey || altKey || metaKey || fields.some(field => field.spec.kind === 'text' && field.row.contains(target))) return false;
  return fields.some(field => {
    const option = field.row.hidden ? undefined : field.spec.options?.find(one => one[3] === key.toUpperCase());
    if (option) field.set(option[0]);
    return option !== undefined;
  });
}

/**
 * A form. `send(values)` is called with sound values, and returns {faults: {field: text}}, 'done', 'refused' or another state.
 * `reads(values)` says in plain words, at each key, what would be sent; so does `button`, as {text, kind}, where it is a call.
 * What `clear` names is emptied once it is done.
 * @returns {DeskForm}
 */
export function form({fields, button, isDanger = false, isBeside = false, send, reads = null, clear = []}) {
  const submit = h('button', {type: 'submit', class: isDanger ? 'main danger' : 'main'}, typeof button === 'string' ? button : '');
  const sentence = h('p', {class: 'reads', 'data-name': 'reads'});
  const progress = makeProgress(submit);
  const byName = Object.fromEntries(fields.map(field => [field.spec.name, field]));

  function readBack() {
    const values = typedValues(fields);
    if (reads) sentence.textContent = reads(values);
    if (typeof button === 'string') return;
    const {text, kind} = button(values);
    submit.textContent = text;
    submit.className = `main ${kind}`;
  }

  function pressed(event) {
    if (event.target === submit || !chosenBy(fields, event)) return;
    event.preventDefault();
    element.dispatchEvent(new Event('change', {bubbles: true}));
  }

  function settle(state) {
    for (const [name, fault] of Object.entries(state?.faults ?? {})) {
      showFault(byName[name], fault);
      byName[name].input.focus();
    }
    if (state === 'done' || state === null) element.dataset.typed = 'no';
    if (state === 'done') {
      for (const name of clear) byName[name].set('');
      readBack();
    }
    const isLeft = document.activeElement !== document.body && !element.contains(document.activeElement);
    if ((state !== 'done' && state !== 'refused') || isLeft) return;
    const isNext = ({row, spec}) => !row.hidden && row.isConnected && spec.kind !== 'choice' && clear.includes(spec.name);
    (fields.find(isNext) ?? fields[0]).input.focus();
  }

  async function submitted(event) {
    event.preventDefault();
    if (progress.isBusy()) return;
    const values = soundValues(fields);
    if (!values) return;
    progress.begin();
    try {
      settle(await send(values));
    } finally {
      progress.end();
    }
  }

  const typed = () => {
    element.dataset.typed = 'yes';
    for (const field of fields) if (field.error.textContent && !field.read().fault) showFault(field, undefined);
    readBack();
  };
  const listeners = {submit: submitted, input: typed, change: typed, keydown: pressed};
  const attributes = {novalidate: true, class: isBeside ? 'beside' : null, ...listeners};
  const element = h('form', attributes, fields.map(field => field.row), reads ? sentence : null, submit, progress.line);
  readBack();
  return {element, fields: byName, focus: () => fields.find(field => !field.row.hidden)?.input.focus()};
}
