// What is known of a branch and a drawer of it before the bank has done anything there.
import {h} from './dom.js';
import {branchOf} from './journal.js';
import {say} from './words.js';

/** The rules by which the bank denies a request for the numbers that it names. */
const OF_NUMBERS = [2, 3, 6, 7];

/** Whether a request of this user was done at a branch, and at that drawer if one is named, as far as this machine knows. */
export async function hasWorkedAt(/** @type {Desk} */ desk, {branch, teller}) {
  const isThere = row => branchOf(row) === branch && (teller === null || JSON.parse(row.body).teller === teller);
  return (await desk.rows(true)).some(row => row.state === 'done' && row.name !== undefined && isThere(row));
}

/**
 * What is wrong with a drawer that was not put on or off by this rule, or null. Such a request names a branch and a
 * drawer, and no other number that these rules look at.
 */
export function drawerFault({branch, teller}, /** @type {number | undefined} */ rule) {
  if (!OF_NUMBERS.includes(rule)) return null;
  return say(rule < 6 ? 'drawer.notYours' : 'session.noDrawer', {branch, teller});
}

/** A line for a refusal that branch and drawer may be the cause of, as nothing was done there yet; or null. */
export async function placeDoubt(/** @type {Desk} */ desk, request, /** @type {BankReply} */ reply) {
  const {branch, teller = null} = JSON.parse(request?.body ?? '{}');
  if (teller === null || !OF_NUMBERS.includes(reply.body?.rule) || await hasWorkedAt(desk, {branch, teller})) {
    return null;
  }
  return h('p', {'data-name': 'place'},
    say('place.doubt', {branch, teller}), ' ', h('a', {href: '#session'}, say('screen.session')));
}
