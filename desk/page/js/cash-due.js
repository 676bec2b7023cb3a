// A correction moves the cash of the drawer of whoever corrects, and the notes lie in another. What has to be moved between the
// two, so that each holds what the bank has for it.
import {showAmount} from './amounts.js';
import {plainDay} from './dates.js';

/** @typedef {{branch: number, source: number, target: number, amount: number, at?: number}} Move A move between drawers, due since. */

/**
 * The move that a correction leaves to be made, or null. The body of the correction has the delta of the entry; `drawer` is where
 * the entry was made. Of a transfer no cash moved.
 * @returns {Move | null}
 */
export function moveAfter({branch, delta, other, teller}, drawer) {
  if (drawer === null || drawer === teller || other !== 0) return null;
  const [source, target] = delta > 0 ? [drawer, teller] : [teller, drawer];
  return {branch, source, target, amount: Math.abs(delta)};
}

/** The address of the screen of moves with a move filled in. */
export const moveLink = (/** @type {Move} */ {source, target, amount}) => `#cash?from=${source}&to=${target}&amount=${showAmount(amount)}`;

/** Whether a move is still due: a drawer is emptied by the end of its day. */
export const isDue = (/** @type {Move} */ move, /** @type {number} */ at) => plainDay(move.at ?? 0) === plainDay(at);

/** What is still to be moved after this move was made. */
export function withoutMove(/** @type {Move[]} */ moves, /** @type {Move} */ made) {
  const at = moves.findIndex(one => ['branch', 'source', 'target', 'amount'].every(member => one[member] === made[member]));
  return at < 0 ? moves : moves.filter((_, number) => number !== at);
}
