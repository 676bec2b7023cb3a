// After a correction: the move of cash between two drawers, for whoever corrected and for whoever asked for it.
import {h, button} from './dom.js';
import {showAmount} from './amounts.js';
import {now} from './dates.js';
import {isDue, moveAfter, moveLink} from './cash-due.js';
import {entriesByNumber} from './entry-lines.js';
import {requestOf} from './asks.js';
import {say} from './words.js';
import * as outcome from './outcome.js';

const go = move => button(say('due.button', valuesOf(move)), () => { location.hash = moveLink(move); });
const valuesOf = ({amount, source, target}) => ({amount: showAmount(amount), source, target});

/** Keeps a move that is due, so that the screen for moves of cash offers it. */
async function keepMove(/** @type {Desk} */ desk, move) {
  const at = now();
  await desk.setDueMoves([...desk.dueMoves.filter(one => isDue(one, at)), {...move, at}]);
}

/** The next request after a correction: cash that has to be moved between the two drawers. */
export async function offerMove(/** @type {Desk} */ desk, move) {
  await keepMove(desk, move);
  const isOwn = move.source === desk.place.teller;
  outcome.add(h('p', {class: 'due'}, say(isOwn ? 'due.own' : 'due.other', valuesOf(move))), isOwn ? go(move) : null);
}

/**
 * The move that is due after a correction that a user asked a colleague for, or null. At which drawers the entry and the
 * correction were made stands in the account's statement. Where this user's own drawer gives, the move is kept.
 */
export async function moveBetween(/** @type {Desk} */ desk, {ask, wish, operations: [operation], number}) {
  const {account, branch, entry, other} = operation;
  if (wish !== 'correct' || other !== 0) return null;
  const lines = await entriesByNumber(desk, account);
  const made = lines.get(`${branch} ${number}`);
  if (!made) return null;
  const drawer = lines.get(`${branch} ${entry}`)?.teller ?? operation.teller;
  const move = moveAfter({...requestOf(operation).body, teller: made.teller}, drawer);
  if (move?.source === desk.place.teller && !await desk.isHanded(ask)) await keepMove(desk, move);
  return move;
}

/** Who has to hand how much to whom, with the move where that is this user. */
export function handedText(/** @type {Desk} */ desk, move) {
  const isOwn = move.source === desk.place.teller;
  return h('p', {class: 'due'}, say(isOwn ? 'due.hand' : 'due.handed', valuesOf(move)), ' ', isOwn ? go(move) : null);
}
