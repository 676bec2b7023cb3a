// What the journals of this machine say of entries: which were transfers or corrections, and which are corrected. The bank's
// reports leave that out.
import {plainDay} from './dates.js';

/**
 * @typedef {{kind: string, other: number | null, isOwn: boolean, isCorrected: boolean, isRefused?: boolean}} Known An entry; its kind is
 * `correction`, or what the screen of corrections calls it. `isRefused` says that the bank refused to correct it.
 */

/**
 * Entries by branch and number, of all that was done at this machine; `badge` is whoever works here.
 * @returns {Map<string, Known>}
 */
export function knownEntries(/** @type {JournalRow[]} */ rows, /** @type {string} */ badge) {
  const known = new Map();
  const put = (branch, entry, kind, other, row) => {
    known.set(`${branch} ${entry}`, {kind, other, isOwn: row.badge === badge, isCorrected: false});
  };
  for (const row of rows.filter(one => one.state === 'done' && one.name)) {
    const [body, reply] = [JSON.parse(row.body), JSON.parse(row.reply)];
    if (row.name === 'post') put(reply.branch, reply.entry, body.delta < 0 ? 'out' : 'in', null, row);
    if (row.name === 'transfer') {
      put(reply.branch, reply.first, 'out-transfer', body.target, row);
      put(reply.branch, reply.second, 'in-transfer', body.source, row);
    }
    if (row.name === 'correct') {
      const entries = body.other === 0 ? [reply.entry] : [reply.first, reply.second];
      for (const entry of entries) put(reply.branch, entry, 'correction', null, row);
      for (const entry of legsOf(known, body)) Object.assign(known.get(entry) ?? {}, {isCorrected: true});
    }
  }
  for (const row of rows.filter(one => one.state === 'refused' && one.name === 'correct' && one.badge === badge)) {
    const {branch, entry} = JSON.parse(row.body);
    const isFinal = FINAL.includes(JSON.parse(row.reply).rule);
    const name = `${branch} ${entry}`;
    if (isFinal) known.set(name, {kind: '', other: null, isOwn: false, isCorrected: false, ...known.get(name), isRefused: true});
  }
  return known;
}

/** The rules by which the bank refuses a correction of an entry whatever else is typed. */
const FINAL = [2, 3, 9];

/** The entries that a correction is of: both legs of a transfer. */
function legsOf(known, {branch, entry}) {
  const name = `${branch} ${entry}`;
  if (!known.has(name)) known.set(name, {kind: '', other: null, isOwn: false, isCorrected: false});
  const {kind} = known.get(name);
  if (!kind.endsWith('-transfer')) return [name];
  return [name, `${branch} ${kind.startsWith('out') ? entry + 1 : entry - 1}`];
}

/** When the branch's last day was closed at this machine, in milliseconds, or 0. */
export function lastClosing(/** @type {JournalRow[]} */ rows, /** @type {number} */ branch) {
  const closings = rows.filter(row => row.state === 'done' && row.name === 'close-day' && JSON.parse(row.body).branch === branch);
  return closings.at(-1)?.answered ?? 0;
}

/** Whether a line is of a branch's present day. */
function isOpen(line, branch, closed, at) {
  const made = line.moment * 1000;
  return line.branch === branch && plainDay(made) === plainDay(at) && made >= closed;
}

/** Whether a colleague can be asked to correct a line: it is of the present day, one's own, and not corrected yet. */
export function canBeAsked(line, known, {branch}, /** @type {number} */ closed, /** @type {number} */ at) {
  const found = known.get(`${line.branch} ${line.entry}`);
  return isOpen(line, branch, closed, at) && Boolean(found?.isOwn) && !found.isCorrected && found.kind !== 'correction';
}

/**
 * Whether whoever works at a branch can correct a line of a statement, as far as this machine knows: it is of that branch's present
 * day, not their own, no correction, and not corrected yet.
 */
export function canCorrect(line, known, {branch, teller}, /** @type {number} */ closed, /** @type {number} */ at) {
  const found = known.get(`${line.branch} ${line.entry}`);
  if (!isOpen(line, branch, closed, at)) return false;
  if (!found) return line.teller !== teller;
  return !found.isOwn && !found.isCorrected && !found.isRefused && found.kind !== 'correction';
}
