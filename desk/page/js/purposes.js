// The purpose of an entry, which the bank does not know: the office keeps it, once the bank has booked the entry. What the office has
// not is known by the journal, and so outlasts the page; it is sent again with the next request, and when the page is opened.
import {entriesOf} from './sums.js';

/** How many rows are known to be kept: more than a journal has of its days. */
const KEPT = 3000;

/**
 * What is noted with a request that has a purpose: with the bank's day, if the bank or the office shows that.
 * @returns {Promise<{purpose?: string, day?: number | null}>}
 */
export async function notedPurpose(/** @type {Desk} */ desk, /** @type {string | null} */ text) {
  const purpose = text?.trim() ?? '';
  if (purpose === '') return {};
  const {branch} = desk.place;
  return {purpose, day: (await desk.quietProof(branch))?.day ?? await desk.office?.dayOf(branch) ?? null};
}

/** What of a journal the office is still to keep: {id, branch, day, numbers, text} of each row. */
export function duePurposes(/** @type {JournalRow[]} */ rows, /** @type {number[]} */ kept) {
  return rows.filter(row => row.state === 'done' && row.noted?.purpose && !kept.includes(row.id)).map(row => ({
    id: row.id, branch: JSON.parse(row.reply).branch, day: row.noted.day ?? null, numbers: entriesOf(row), text: row.noted.purpose,
  }));
}

/** The purposes of a statement's lines, by branch and entry, from what the office answered. */
export function purposesOf({made, purposes}, /** @type {{branch: number, entry: number, moment: number}[]} */ lines) {
  const found = new Map();
  for (const {branch, entry, moment} of lines) {
    // (numbers begin anew each year, so the moment has to be the entry's, or one after the copy)
    const one = purposes.find(it => it.branch === branch && it.entry === entry && (it.moment === null ? moment >= made : it.moment === moment));
    if (one) found.set(`${branch} ${entry}`, one.text);
  }
  return found;
}

/** Sends what is due, one call at a time; `refused(reply)` hears what the office won't keep. */
export function makePurposes(/** @type {Desk} */ desk, store, refused) {
  const key = `${desk.badge} purposes kept`;
  let sending = Promise.resolve();
  async function sendAll() {
    for (const {id, ...due} of duePurposes(await desk.rows(true), (await store.fact(key)) ?? [])) {
      const reply = await desk.office.keepPurpose(due);
      if (reply === null || reply.status >= 500) return;
      await store.setFact(key, [...(await store.fact(key)) ?? [], id].slice(-KEPT));
      if (reply.status !== 200) refused(reply);
    }
  }
  return {send: () => { sending = sending.then(sendAll, sendAll); return sending; }};
}
