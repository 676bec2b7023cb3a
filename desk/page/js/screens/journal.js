import {h, table, button} from '../dom.js';
import {stateText, askedText, endText, notedText, journalFile} from '../journal.js';
import {differenceText} from '../operations.js';
import {cashOver} from '../drawer-cash.js';
import {cashChart} from '../chart.js';
import {hasReceipt} from '../receipt.js';
import {bookedRow, linesOf} from '../sums.js';
import {printReceipt} from '../paper.js';
import {showChange} from '../amounts.js';
import {now, plainDay, showTime, showWhen} from '../dates.js';
import {JOURNAL_DAYS} from '../settings.js';
import {say} from '../words.js';

const columns = () => [
  [say('column.time'), ''], [say('column.asked'), ''], [say('column.state'), ''], [say('column.end'), ''], [say('column.number'), 'n'],
  [say('column.tries'), 'n'], [say('column.receipt'), 'screen'],
];

function save(desk, rows) {
  const href = URL.createObjectURL(new Blob([journalFile(rows)], {type: 'text/csv'}));
  h('a', {href, download: `${say('file.name')}-${desk.badge}-${plainDay(now())}.csv`}).click();
  setTimeout(() => URL.revokeObjectURL(href), 10000);
}

/** The drawer's cash over the shift, where the shift has touched it. */
function cashSection(desk, rows) {
  const {teller} = desk.place;
  const shift = cashOver(rows, teller);
  if (shift.points.length === 0) return null;
  const {difference} = shift;
  const counted = difference === 0 ? say('count.agreed')
    : say('count.differed', {what: differenceText(difference), difference: showChange(difference ?? 0)});
  return h('section', {class: 'past'},
    h('h2', {}, say(shift.isKnown ? 'journal.cash' : 'journal.change', {teller})), cashChart(shift),
    difference === null ? null : h('p', {class: difference === 0 ? 'agrees' : 'differs'}, counted));
}

/** What can be printed or shown again of a row. */
function paperOf(desk, row) {
  if (row.paper) return h('a', {href: `#day?kept=${row.id}`, 'aria-label': say('journal.show', {asked: row.text})}, say('show'));
  const {sum} = row;
  const booked = sum?.done.length > 0 ? bookedRow(sum) : row;
  if (!hasReceipt(booked)) return '';
  const label = say('journal.print', {number: booked.slip});
  const print = button(say('print'), () => printReceipt(desk, booked), {class: 'line', 'aria-label': label});
  const open = () => desk.report('sum', sum.id);
  return row.state === 'partly' ? [print, button(say('parts.open'), open, {class: 'line'})] : print;
}

/** The number of a request, or of each part of a sum. */
const numbersOf = row => (row.sum ? row.sum.rows.map(one => one.slip).join(say('office.comma')) : row.slip ?? '');

function cellsOf(desk, row, isAll) {
  const state = h('span', {class: `mark ${row.state}`}, stateText(row));
  const noted = notedText(row);
  const end = noted ? [h('p', {}, endText(row)), h('p', {}, noted)] : endText(row);
  return [isAll ? showTime(row.at) : showWhen(row.at), askedText(row), state, end, numbersOf(row), row.tries ?? 1, paperOf(desk, row)];
}

async function make(/** @type {Desk} */ desk) {
  const paper = h('div', {class: 'paper'});
  const shiftRows = await desk.rows();
  let rows = shiftRows;
  const options = [['shift', say('journal.shift')], ['all', say('journal.all', {count: JOURNAL_DAYS})]];
  const which = h('select', {id: 'which', change: () => show(which.value === 'all')},
    options.map(([value, label]) => h('option', {value}, label)));

  async function show(isAll) {
    const found = isAll ? await desk.rows(true) : shiftRows;
    if (isAll !== (which.value === 'all')) return; // the other was chosen meanwhile
    rows = found;
    const isSince = !isAll && desk.shiftBegan > 0;
    const caption = say(isSince ? 'journal.since' : 'journal.caption', {badge: desk.badge, time: isSince ? showTime(desk.shiftBegan) : ''});
    paper.replaceChildren(table(caption, columns(), linesOf(rows).map(row => cellsOf(desk, row, isAll)).reverse(), {class: 'journal'}));
  }

  await show(false);
  const tools = h('div', {class: 'tools'}, h('label', {for: 'which'}, say('show')), which,
    button(say('journal.save'), () => save(desk, rows)), button(say('print'), () => print()));
  return {elements: [cashSection(desk, await desk.drawerRows()), tools, paper]};
}

/** @type {DeskScreen} */
export default {id: 'journal', key: 'j', isWide: true, asks: [], make};
