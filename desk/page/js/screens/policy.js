import {h, table, button, exactToggle} from '../dom.js';
import {form} from '../form.js';
import {field, amount} from '../fields.js';
import {showAmount} from '../amounts.js';
import {exampleDay, isMoment, showTime} from '../dates.js';
import {readPolicy} from '../reports.js';
import {confirmed} from '../dialog.js';
import {PROCEDURES} from '../operations.js';
import {KINDS, FOREVER, bodyOf} from '../policy-commands.js';
import {say} from '../words.js';
import * as outcome from '../outcome.js';

const user = () => field({name: 'user', label: say('office.user'), kind: 'number', most: 9999});
const set = () => field({name: 'set', label: say('column.set'), kind: 'number'});
const procedure = () => field({
  name: 'procedure', label: say('column.operation'), kind: 'pick', options: PROCEDURES.map(name => [name, say(`procedure.${name}`)]),
});
const limit = () => amount({name: 'limit', label: say('column.limit'), least: 0, most: 999999999});
const moment = name => field({
  name, label: say(`office.${name}`), kind: 'text', optional: true, pattern: {test: isMoment}, hint: say('moment.hint', {day: exampleDay()}),
  fault: say('moment.fault', {day: exampleDay()}),
});
const userName = () => field({
  name: 'name', label: say('column.name'), kind: 'text', pattern: /^[ -~]{1,20}$/, fault: say('office.name.fault'),
});
const officer = () => field({name: 'officer', label: say('office.officer'), kind: 'tick'});
const members = () => field({
  name: 'members', label: say('office.members'), kind: 'text', pattern: /^.{1,200}$/, fault: say('office.members.fault'),
  hint: say('office.members.hint'),
});

/** The commands, each with its fields. */
const COMMANDS = {
  'suspend': () => [user()],
  'restore': () => [user()],
  'enrol': () => [user(), userName(), officer()],
  'appoint': () => [user(), procedure()],
  'dismiss': () => [user(), procedure()],
  'grant': () => [user(), procedure(), set(), limit(), moment('first'), moment('last')],
  'revoke': () => [user(), procedure(), set()],
  'certify': () => [procedure(), set()],
  'withdraw': () => [procedure(), set()],
  'define-set': () => [set(), members()],
};
const DANGERS = ['suspend', 'revoke', 'withdraw', 'dismiss'];
const CLEARED = ['user', 'set', 'name', 'members', 'first', 'last'];

const LISTED = ['user', 'triple', 'relation', 'certifier', 'set'];
const columnsOf = kinds => Object.entries(kinds).map(([name, kind]) => [say(`column.${name}`), kind]);
const COLUMNS = {
  user: {user: 'n', name: '', officer: '', suspended: ''},
  triple: {user: 'n', name: '', operation: '', set: 'n', limit: 'n', first: '', last: ''},
  relation: {operation: '', set: 'n', by: 'n', name: ''},
  certifier: {user: 'n', name: '', operation: ''},
  set: {set: 'n', kind: '', low: 'n', high: 'n'},
};

function cellsOf(kind, cells, names) {
  const name = names.get(cells.user ?? cells.by) ?? '';
  const operation = say(`procedure.${cells.procedure}`);
  switch (kind) {
    case 'user': {
      const marks = [cells.isOfficer ? say('office.isOfficer') : '', cells.isSuspended ? say('office.isSuspended') : ''];
      return [cells.user, cells.name, ...marks];
    }
    case 'triple': {
      const first = cells.first === 0 ? say('office.always') : showTime(cells.first * 1000);
      const last = cells.last === FOREVER ? say('office.forever') : showTime(cells.last * 1000);
      return [cells.user, name, operation, cells.set, showAmount(cells.limit), first, last];
    }
    case 'relation': return [operation, cells.set, cells.by, name];
    case 'certifier': return [cells.user, name, operation];
    default: return [cells.set, KINDS.includes(cells.items) ? say(`item.${cells.items}`) : cells.items, cells.low, cells.high];
  }
}

/** A value of a command as a text. */
function valueText(name, value) {
  if (name === 'limit') return showAmount(value);
  if (name === 'procedure') return say(`procedure.${value}`);
  return typeof value === 'boolean' ? say(value ? 'yes' : 'no') : value;
}

/** A command as the journal and the panel show it. */
function commandText(name, values, fields) {
  const given = fields.filter(({spec}) => values[spec.name] !== null)
    .map(({spec}) => say('office.given', {label: spec.label, value: valueText(spec.name, values[spec.name])}));
  return say('office.asked', {command: say(`command.${name}`), given: given.join(say('office.comma'))});
}

function commandForm(desk, name, listAgain) {
  const fields = COMMANDS[name]();
  const names = fields.map(one => one.spec.name);
  return form({
    fields,
    button: say(`command.${name}`),
    isDanger: DANGERS.includes(name),
    clear: CLEARED.filter(one => names.includes(one)),
    async send(values) {
      const {body, faults} = bodyOf(name, values);
      if (faults) return {faults};
      if (name === 'withdraw' && !await confirmed(say('office.withdraw'), say('office.withdraw.yes'))) return 'kept';
      const state = await desk.command(name, body, commandText(name, values, fields));
      if (state === 'done') await listAgain();
      return state;
    },
  });
}

/** The listing of the policy, with what was typed to search it. */
function listing({rows, text}, names) {
  const kinds = [['', say('office.all')], ...LISTED.map(name => [name, say(`listed.${name}`)])];
  const kind = h('select', {id: 'kind', change: show}, kinds.map(([value, label]) => h('option', {value}, label)));
  const search = h('input', {id: 'search', type: 'search', autocomplete: 'off', input: show});
  const listed = h('div', {});
  const exact = h('pre', {tabindex: 0, 'aria-label': say('exact')}, text);

  function tableOf(one) {
    const wanted = search.value.trim().toLowerCase();
    const found = rows.filter(row => row.kind === one).map(({cells}) => cellsOf(one, cells, names))
      .filter(cells => cells.some(cell => String(cell).toLowerCase().includes(wanted)));
    const caption = say('office.caption', {kind: say(`listed.${one}`), count: found.length});
    return found.length === 0 ? null : table(caption, columnsOf(COLUMNS[one]), found);
  }
  function show() {
    const shown = LISTED.filter(one => kind.value === '' || kind.value === one);
    listed.replaceChildren(...shown.map(tableOf).filter(one => one !== null));
  }
  show();
  const tools = h('div', {class: 'tools'}, h('label', {for: 'kind'}, say('show')), kind,
    h('label', {for: 'search'}, say('office.search')), search,
    exactToggle(listed, exact), button(say('print'), () => print()));
  return [tools, h('div', {class: 'paper'}, listed, exact)];
}

async function make(/** @type {Desk} */ desk) {
  const paper = h('div', {class: 'results'});
  const holder = h('div', {});
  const commands = Object.keys(COMMANDS).map(name => h('option', {value: name}, say(`command.${name}`)));
  const which = h('select', {id: 'command', change: choose}, commands);

  async function list() {
    if (paper.childElementCount === 0) paper.replaceChildren(h('p', {class: 'hint', role: 'status'}, say('office.reading')));
    const found = await desk.ask('policy', null, say('asked.policy'), ({text}) => ({rows: readPolicy(text), text}));
    if (!found) return paper.replaceChildren();
    const pairs = found.rows.filter(row => row.kind === 'user').map(({cells}) => [cells.user, cells.name]);
    await desk.keepNames(pairs);
    return paper.replaceChildren(...listing(found, new Map(pairs)));
  }
  function choose() {
    const listAgain = async () => { if (paper.childElementCount > 0) await list(); };
    holder.replaceChildren(commandForm(desk, which.value, listAgain).element);
  }
  choose();
  const listButton = button(say('office.list'), () => {
    outcome.clear();
    list();
  });
  const {policy: isOfficer} = desk.allowed;
  const lead = isOfficer === true ? null
    : h('p', {class: 'lead'}, say(isOfficer === false ? 'office.blind' : 'office.lead'));
  const pick = h('div', {class: 'field', 'data-name': 'command'}, h('label', {for: 'command'}, say('office.command')), which);
  const rows = [h('div', {class: 'row'}, pick, listButton), h('div', {class: 'row'}, holder)];
  return {elements: [lead, ...rows, paper], focus: () => which.focus()};
}

/** @type {DeskScreen} */
export default {id: 'policy', key: 'o', hasTitle: true, isWide: true, asks: ['policy', 'define-set'], make};
