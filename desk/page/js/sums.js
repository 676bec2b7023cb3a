// A sum is one act, though the bank takes it in parts. What has become of it stands in the journal, whose rows name it, and so
// outlasts the page: what is done is never sent again, and what is left is known to the cent.
import {centsOf, partsOf, withCents} from './parts.js';
import {isBegunAnew, isCovered} from './cover.js';

const totalOf = (/** @type {number[]} */ cents) => cents.reduce((sum, one) => sum + one, 0);

/**
 * A sum by its rows.
 * @returns {Sum}
 */
function sumWith(id, name, body, /** @type {JournalRow[]} */ rows) {
  const parts = partsOf(centsOf(body)).map((cents, at) => ({part: at + 1, cents}));
  // (of what was refused nothing stands)
  const standing = parts.map(({part}) => rows.filter(row => row.noted.part === part && row.state !== 'refused').at(-1));
  const done = standing.filter(row => row?.state === 'done');
  const left = parts.filter((_, at) => standing[at] === undefined);
  return {
    id, name, body, rows, done, left, count: parts.length,
    doneCents: totalOf(done.map(row => centsOf(JSON.parse(row.body)))), leftCents: totalOf(left.map(one => one.cents)),
    isWaiting: standing.some(row => row?.state === 'waiting'), isAside: standing.some(row => row?.state === 'aside'),
    isWhole: done.length === parts.length,
  };
}

/** A sum of which nothing was sent yet. */
export const newSum = (name, body, id = crypto.randomUUID(), noted = {}) => ({...sumWith(id, name, body, []), noted});

/** What is noted with each part of a sum beside its place: its purpose. */
const notedOf = (/** @type {Sum} */ {noted, rows}) => purposeIn(noted ?? rows[0]?.noted);

/** Of what is noted with a request, its purpose. */
export function purposeIn(/** @type {Record<string, any> | undefined} */ noted) {
  return noted?.purpose ? {purpose: noted.purpose, day: noted.day ?? null} : {};
}

/** A sum by what the journal has of it; none where there is no such sum, or no number of one. */
export function sumOf(/** @type {JournalRow[]} */ rows, /** @type {string | undefined} */ id) {
  const own = id === undefined ? [] : rows.filter(row => row.noted?.sum === id);
  if (own.length === 0) return null;
  return sumWith(id, own[0].name, withCents(JSON.parse(own[0].body), own[0].noted.total), own);
}

/** The rows of a journal with each sum in one line, which has it as `sum`. */
export function linesOf(/** @type {JournalRow[]} */ rows) {
  const ids = rows.map(row => row.noted?.sum);
  return rows.filter((_, at) => ids[at] === undefined || ids.indexOf(ids[at]) === at).map(row => {
    const sum = sumOf(rows, row.noted?.sum);
    return sum ? {...row, sum, state: stateOf(sum), tries: totalOf(sum.rows.map(one => one.tries))} : row;
  });
}

/** The state of a sum as that of a row. */
function stateOf(/** @type {Sum} */ sum) {
  if (sum.isWhole) return 'done';
  if (sum.isWaiting) return 'waiting';
  return sum.done.length > 0 ? 'partly' : sum.rows.at(-1).state;
}

/** What is booked of a sum, as one row: its last, with all their cents. */
export function bookedRow(/** @type {Sum} */ sum) {
  return {...sum.done.at(-1), noted: notedOf(sum), body: JSON.stringify(withCents(sum.body, sum.doneCents)), parts: sum.done};
}

/** The numbers of the entries of a row that is done. */
export function entriesOf(/** @type {JournalRow} */ row) {
  const {entry, first, second} = JSON.parse(row.reply);
  return entry === undefined ? [first, second] : [entry];
}

/** The operations that the bank would release for what is left of a sum. */
export function operationsLeft(/** @type {Sum} */ sum) {
  return sum.left.map(({cents}) => ({...withCents(sum.body, cents), procedure: sum.name}));
}

/** The corrections that take back what is booked of a sum. */
export function correctionsOf(/** @type {Sum} */ sum) {
  return sum.done.map(row => {
    const {account, source, target, branch, teller, delta, amount} = JSON.parse(row.body);
    const [entry] = entriesOf(row);
    return {account: account ?? source, branch, delta: delta ?? -amount, entry, other: target ?? 0, procedure: 'correct', teller};
  });
}

/** The last sum of a journal, if it was the last request that bears a number. */
export function lastSum(/** @type {JournalRow[]} */ rows) {
  return sumOf(rows, rows.filter(row => row.name !== undefined).at(-1)?.noted?.sum);
}

/** The account that a sum takes from, or null. */
const takenFrom = ({body}) => body.source ?? (body.delta < 0 ? body.account : null);

/** Whether a sum is meant: it is not in the account, say, or the same was begun before. */
async function isMeant(/** @type {Desk} */ desk, /** @type {Sum} */ sum) {
  const account = takenFrom(sum);
  const before = sum.rows.length === 0 ? lastSum(await desk.rows(true)) : null;
  const isSame = before && before.name === sum.name && JSON.stringify(before.body) === JSON.stringify(sum.body);
  if (isSame && before.done.length > 0 && !before.isWhole && !await isBegunAnew(before)) return false;
  return account === null || isCovered(desk, account, sum.leftCents);
}

/**
 * Sends what is left of a sum, one part after another, and stops at the first that is not done. `releases` has the number of a
 * release by part. Where it may be more than the account has, that is asked about before. Returns the state of the last part that
 * was sent, and 'kept' where none was meant.
 */
export async function sendSum(/** @type {Desk} */ desk, /** @type {Sum} */ sum, releases = new Map()) {
  if (desk.sumSent !== null) return 'held';
  if (desk.session && !await desk.waits() && !await isMeant(desk, sum)) return 'kept';
  desk.sumSent = sum.id;
  let state = 'done';
  for (const {part, cents} of sum.left) {
    const noted = {...notedOf(sum), sum: sum.id, total: centsOf(sum.body), part, parts: sum.count};
    state = await desk.act(sum.name, withCents(sum.body, cents), releases.get(part) ?? null, noted);
    if (state !== 'done') break;
  }
  desk.sumSent = null;
  desk.report('sum', sum.id);
  return state;
}

/**
 * Has an amount done: at once, or in parts where one entry can't have it. Once a part is booked the panel has what is left, so for
 * the form that is 'done'.
 */
export async function actInParts(/** @type {Desk} */ desk, name, body, release, noted = {}) {
  if (partsOf(centsOf(body)).length === 1) return desk.act(name, body, release, noted);
  const sum = newSum(name, body, undefined, noted);
  const state = await sendSum(desk, sum, new Map([[1, release]]));
  return sumOf(await desk.rows(true), sum.id)?.done.length > 0 ? 'done' : state;
}
