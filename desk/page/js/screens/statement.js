import {h, table, button, exactToggle, refocus} from '../dom.js';
import {form} from '../form.js';
import {field, account} from '../fields.js';
import {showAmount, showChange} from '../amounts.js';
import {now, showTime} from '../dates.js';
import {readStatement} from '../reports.js';
import {canBeAsked, canCorrect, knownEntries, lastClosing} from '../known-entries.js';
import {lastTurn, LINES_PER_PAGE} from '../last-turn.js';
import {purposesOf} from '../purposes.js';
import {say} from '../words.js';
import {namesText, ownersOf} from '../account-names.js';
import * as outcome from '../outcome.js';

class Stopped extends Error {}

const columns = () => [
  [say('column.turn'), 'n'], [say('column.time'), ''], [say('amount'), 'n'], [say('column.balance'), 'n'], [say('branch'), 'n'],
  [say('correct.entry'), 'n'], [say('drawer.number'), 'n'], [say('column.mark'), 'note'], [say('column.correct'), 'screen'],
];

/** Reads lines of an account's statement; `isCurrent` says whether they are still wanted. */
function readerOf(desk, of, isCurrent) {
  return async (start, count, text) => {
    const rows = await desk.ask('statement', {account: of, count, start}, text, reply => readStatement(reply.text).rows);
    if (!rows || !isCurrent()) throw new Stopped();
    return rows;
  };
}

/** The last `wanted` lines, or all; what the search for the last turn has read is not asked for again. */
async function lastLines(desk, of, wanted, read, progress) {
  let found = [];
  const linesFrom = async turn => {
    const rows = await read(turn, LINES_PER_PAGE);
    if (rows.length > 0) found = rows;
    return rows;
  };
  const last = await lastTurn(linesFrom, desk.lastTurns.get(of) ?? 0);
  desk.lastTurns.set(of, last);
  const first = Math.max(1, last - wanted + 1);
  if (last === 0 || (found.at(-1)?.turn === last && found[0].turn <= first)) return found.filter(row => row.turn >= first);
  const rows = [];
  while (rows.length < last - first + 1) {
    const start = first + rows.length;
    const page = await read(start, Math.min(LINES_PER_PAGE, last - start + 1));
    if (page.length === 0) { // an earlier copy of the bank was brought back: the end that was known is no more
      desk.lastTurns.delete(of);
      return lastLines(desk, of, wanted, read, progress);
    }
    rows.push(...page);
    progress(rows.length, last - first + 1);
  }
  return rows;
}

/** The screen that corrects a line, filled in with all that is known of its entry. */
function correctLink(of, row, found) {
  const given = new URLSearchParams({
    entry: row.entry, account: of, way: row.delta < 0 ? 'out' : 'in', amount: showAmount(Math.abs(row.delta)), drawer: row.teller,
  });
  if (found?.kind) given.set('kind', found.kind);
  if (found?.other) given.set('other', found.other);
  return h('a', {href: `#correct?${given}`, 'aria-label': say('statement.correct', {entry: row.entry})}, say('column.correct'));
}

/** Asks colleagues to correct a line of one's own; all that it takes is in the line and in the journal. */
function askButton(/** @type {Desk} */ desk, of, row, found) {
  const {branch, entry, teller, delta} = row;
  const operation = {account: of, branch, delta, entry, other: found.other ?? 0, procedure: 'correct', teller};
  const ask = event => {
    event.target.disabled = true;
    return desk.askFor('correct', [operation]);
  };
  return button(say('column.ask'), ask, {class: 'line', 'aria-label': say('statement.ask', {entry})});
}

/** What can be done about a line: it is corrected here, or by a colleague whom the office's queue asks. */
function actOf(/** @type {Desk} */ desk, of, row, known, closed) {
  const found = known.get(`${row.branch} ${row.entry}`);
  if (canCorrect(row, known, desk.place, closed, now())) return correctLink(of, row, found);
  const isAsked = desk.office?.isThere() && canBeAsked(row, known, desk.place, closed, now());
  return isAsked ? askButton(desk, of, row, found) : '';
}

/** What is known of a line's entry, as a text. */
function markOf(found, purpose = '') {
  if (purpose !== '') return [markOf(found), purpose].filter(Boolean).join(say('office.comma'));
  if (!found) return '';
  if (found.kind === 'correction') return say('mark.correction');
  if (found.isCorrected) return say('mark.corrected');
  return found.other ? say(`mark.${found.kind}`, {account: found.other}) : '';
}

function paperOf(desk, of, rows, {journal, purposes}, earlier) {
  const [first, last] = [rows[0], rows.at(-1)];
  const values = {account: of, first: first?.turn, last: last?.turn, balance: last ? showAmount(last.balance) : '', time: showTime(now())};
  const known = knownEntries(journal, desk.badge);
  const cells = rows.map(row => {
    const found = known.get(`${row.branch} ${row.entry}`);
    return [row.turn, showTime(row.moment * 1000), showChange(row.delta), showAmount(row.balance), row.branch, row.entry, row.teller,
      markOf(found, purposes.get(`${row.branch} ${row.entry}`)), actOf(desk, of, row, known, lastClosing(journal, row.branch))];
  });
  const caption = say(last ? 'statement.caption' : 'statement.empty', values);
  const readable = table(caption, columns(), cells, {class: 'statement'});
  const exact = h('div', {}, h('p', {class: 'head'}, caption),
    h('pre', {tabindex: 0, 'aria-label': say('exact')}, rows.map(row => `${row.line}\n`).join('')));
  const toggle = exactToggle(readable, exact);
  const more = first?.turn > 1 ? button(say('statement.earlier'), earlier) : null;
  return [h('div', {class: 'tools'}, button(say('print'), () => print()), toggle, more), h('div', {class: 'paper'}, readable, exact)];
}

/** How many lines are there by now, with a button that ends the reading. */
function makeProgress(stopped) {
  const bar = h('progress', {'aria-label': say('statement.progress')});
  const text = h('span', {role: 'status'}, say('statement.looking'));
  const stop = button(say('statement.stop'), stopped);
  const show = (count, all) => {
    [bar.max, bar.value] = [all, count];
    text.textContent = say('statement.lines', {read: count, count: all});
  };
  return {element: h('div', {class: 'progress'}, bar, text, stop), stop, show};
}

async function make(/** @type {Desk} */ desk, {given}) {
  const paper = h('div', {class: 'results'});
  let asked = 0;

  async function show(of, wanted) {
    asked += 1;
    const mine = asked;
    outcome.clear();
    const progress = makeProgress(() => {
      asked += 1;
      paper.replaceChildren();
      ask.focus();
    });
    paper.replaceChildren(progress.element);
    refocus(progress.stop);
    let isNoted = false;
    const read = readerOf(desk, of, () => mine === asked);
    const noting = (start, count) => {
      const note = isNoted ? null : say('asked.statement', {account: of});
      isNoted = true;
      return read(start, count, note);
    };
    try {
      const rows = await lastLines(desk, of, wanted, noting, progress.show);
      const [journal, owners, found] = [await desk.allRows(), await ownersOf(desk, of), await desk.office?.purposes(of)];
      const purposes = found ? purposesOf(found, rows) : new Map();
      paper.replaceChildren(...paperOf(desk, of, rows, {journal, purposes}, () => show(of, wanted * 5)));
      if (owners.length > 0) paper.querySelector('.paper').prepend(h('p', {class: 'names'}, namesText(of, owners)));
      refocus(paper.querySelector('button'));
      return 'done';
    } catch (error) {
      if (!(error instanceof Stopped)) throw error;
      if (mine === asked) paper.replaceChildren();
      return 'refused';
    }
  }

  const options = [...[20, 100].map(count => [String(count), say('statement.last', {count})]), ['Infinity', say('statement.all')]];
  const ask = form({
    fields: [
      account({value: given.get('account') ?? ''}),
      field({name: 'which', label: say('statement.which'), kind: 'pick', value: '20', options}),
    ],
    button: say('show'),
    send: ({account: of, which}) => show(of, Number(which)),
  });
  return {elements: [h('div', {class: 'row'}, ask.element), paper], focus: ask.focus};
}

/** @type {DeskScreen} */
export default {id: 'statement', key: 's', isWide: true, asks: ['statement'], make};
