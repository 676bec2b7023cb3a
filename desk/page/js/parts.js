// Amounts above what one entry can move: in parts, each a request of its own with its own slip.
import {showAmount} from './amounts.js';
import {say} from './words.js';

/** What one entry can move at most, and what is taken at once, in cents: a hundred entries. */
export const MOST_PER_ENTRY = 999999;
export const MOST_AT_ONCE = 100 * MOST_PER_ENTRY;

/** An amount in cents as parts, all of them full but the last. */
export function partsOf(/** @type {number} */ cents) {
  const full = Math.floor(cents / MOST_PER_ENTRY);
  const rest = cents - full * MOST_PER_ENTRY;
  return [...Array(full).fill(MOST_PER_ENTRY), ...(rest > 0 ? [rest] : [])];
}

/** What a form reads back, with how many parts there are where an amount goes in parts. */
export function inParts(/** @type {number | null} */ cents, /** @type {string} */ sentence) {
  const count = cents === null ? 1 : partsOf(cents).length;
  return count > 1 ? say('parts.reads', {sentence, parts: count, most: showAmount(MOST_PER_ENTRY)}) : sentence;
}

/** The cents that the body of an operation moves. */
export const centsOf = body => Math.abs(body.delta ?? body.amount);

/** The body that moves other cents the same way. */
export function withCents(body, /** @type {number} */ cents) {
  return 'delta' in body ? {...body, delta: body.delta < 0 ? -cents : cents} : {...body, amount: cents};
}

/** The operations of one request in the queue as one, with what they move together. */
export function wholeOf(operations) {
  return withCents(operations[0], operations.reduce((sum, one) => sum + centsOf(one), 0));
}
