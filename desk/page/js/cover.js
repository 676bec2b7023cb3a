// What is asked before a large amount is sent, of which a part could be booked and the next refused.
import {confirmed} from './dialog.js';
import {showAmount} from './amounts.js';
import {say} from './words.js';

/**
 * Whether an amount may go out of an account: it has that much, or whoever works here says that it may be overdrawn. Where the
 * bank shows no balance, that is said.
 */
export async function isCovered(/** @type {Desk} */ desk, /** @type {number} */ account, /** @type {number} */ cents) {
  const balance = await desk.balanceOf(account);
  if (balance !== null && cents <= balance) return true;
  const values = {account, amount: showAmount(cents), balance: showAmount(balance ?? 0), over: showAmount(cents - (balance ?? 0))};
  const why = say(balance === null ? 'overdraft.unknown' : 'overdraft.above', values);
  return confirmed(say('overdraft.question', values), say('overdraft.yes'), [why, say('overdraft.parts')]);
}

/** Whether an amount is meant anew of which a part was booked just before. */
export function isBegunAnew(/** @type {Sum} */ {doneCents, leftCents}) {
  const values = {amount: showAmount(doneCents), left: showAmount(leftCents)};
  return confirmed(say('repeat.question'), say('repeat.yes'), [say('parts.before', values)]);
}
