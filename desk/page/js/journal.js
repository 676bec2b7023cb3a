// A row of the journal in plain words. A row of what bears a number has name and body; any other brings its text along.
import {OPERATIONS} from './operations.js';
import {showAmount} from './amounts.js';
import {centsOf, withCents} from './parts.js';
import {entriesOf} from './sums.js';
import {refusalText} from './refusals.js';
import {toCsv} from './csv.js';
import {plainTime} from './dates.js';
import {nameOf} from './names.js';
import {say} from './words.js';

/** What was asked for with a sum. */
export const sumText = (/** @type {Sum} */ sum) => OPERATIONS[sum.name].asked(sum.body);

/** The values of the sentences about a sum. */
export function sumValues(/** @type {Sum} */ sum) {
  const entries = sum.done.flatMap(entriesOf);
  return {
    amount: showAmount(sum.doneCents), total: showAmount(centsOf(sum.body)), left: showAmount(sum.leftCents),
    branch: sum.body.branch, entries: entries.join(say('office.comma')), count: entries.length, parts: sum.count,
  };
}

/** What was asked for: with a part, of which amount it is. */
export function askedText(/** @type {JournalRow} */ row) {
  if (row.text) return row.text;
  if (row.sum) return sumText(row.sum);
  const [body, {asked}] = [JSON.parse(row.body), OPERATIONS[row.name]];
  if (row.noted?.sum === undefined) return asked(body);
  const {total, part, parts} = row.noted;
  return say('parts.part', {asked: asked(withCents(body, total)), part, parts, amount: showAmount(centsOf(body))});
}

export const stateText = (/** @type {JournalRow} */ row) => say(`state.${row.state}`);

/** What came of it. */
export function endText(/** @type {JournalRow} */ row) {
  if (row.text) return row.end;
  if (row.state === 'waiting') return say('state.waiting');
  if (row.state === 'aside') return say('end.aside', row.aside);
  if (row.sum && row.sum.done.length > 0) return sumEndText(row.sum);
  const reply = JSON.parse(row.reply);
  if (row.state === 'refused') return say('end.refused', {why: refusalText(reply, row.name).title});
  return say('end.text', OPERATIONS[row.name].end(JSON.parse(row.body), reply));
}

/** What came of a sum of which something is booked. */
function sumEndText(/** @type {Sum} */ sum) {
  const values = sumValues(sum);
  if (!sum.isWhole) return say('parts.end', values);
  const last = sum.done.at(-1);
  return say('end.text', {...OPERATIONS[sum.name].end(JSON.parse(last.body), JSON.parse(last.reply)), more: say('parts.entries', values)});
}

/** What was noted with a request, and the bank does not know: '' for nothing. */
export function notedText(/** @type {JournalRow} */ row) {
  const {reason, colleague, purpose} = row.noted ?? {};
  if (purpose) return say('purpose.noted', {purpose});
  return reason ? say('count.noted', {reason, colleague: nameOf(colleague)}) : '';
}

/** The branch of a request that waits; that of a release is in its operation. */
export function branchOf(/** @type {JournalRow} */ row) {
  const body = JSON.parse(row.body);
  return body.branch ?? body.operation.branch;
}

const COLUMNS = ['time', 'asked', 'state', 'end', 'noted', 'number', 'tries', 'body', 'status', 'reply'];

/** Rows as a file for a spreadsheet. */
export function journalFile(/** @type {JournalRow[]} */ rows) {
  return toCsv(COLUMNS.map(name => say(`file.${name}`)), rows.map(row => [
    plainTime(row.at), askedText(row), stateText(row), endText(row), notedText(row), row.slip ?? '', row.tries ?? 1,
    row.body ?? '', row.status ?? '', row.reply ?? '',
  ]));
}
