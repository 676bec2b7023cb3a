// What a request in the office's queue says: what the bank is asked for by it, as a text, and where a colleague does it.
import {OPERATIONS} from './operations.js';
import {showAmount} from './amounts.js';
import {wholeOf} from './parts.js';
import {RELEASED} from './released.js';
import {say} from './words.js';

/** What a refused request can be asked of colleagues: a release, a correction, or nothing. */
export function wishOf(name, rule) {
  if (rule === 4 && name in RELEASED) return 'release';
  return rule === 9 && name === 'correct' ? 'correct' : null;
}

/**
 * Of an operation in the queue, what the bank would be asked.
 * @returns {{name: string, body: any}}
 */
export function requestOf({procedure, ...body}) {
  return {name: procedure, body};
}

/** What is asked for: an amount in parts with its total. */
export function askText({operations}) {
  const {asked} = OPERATIONS[operations[0].procedure];
  if (operations.length === 1) return asked(operations[0]);
  return say('parts.whole', {asked: asked(wholeOf(operations)), parts: operations.length});
}

/** The address of the form that corrects an entry. */
export function correctionOf({entry, account, other, delta, teller}) {
  const way = delta < 0 ? 'out' : 'in';
  const [kind, transfer] = other === 0 ? [way, ''] : [`${way}-transfer`, `&other=${other}`];
  return `correct?entry=${entry}&account=${account}&kind=${kind}&amount=${showAmount(Math.abs(delta))}&drawer=${teller}${transfer}`;
}
