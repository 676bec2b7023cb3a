// What is asked before a request is sent that may be a slip of the hand: a count that differs, and the same request twice.
import {confirmed, witnessFor} from './dialog.js';
import {showAmount} from './amounts.js';
import {showClock} from './dates.js';
import {askedText} from './journal.js';
import {OPERATIONS} from './operations.js';
import {withCents} from './parts.js';
import {say} from './words.js';
import {DIFFERENCE_BOUND} from './settings.js';

/** The body of a request; of a part, that of the sum. */
const wholeBody = ({body, noted}) => (noted?.sum === undefined ? body : JSON.stringify(withCents(JSON.parse(body), noted.total)));

/** Whether a request is the same as the last one that was done, and no further part of one sum. */
export function isSame(last, wanted) {
  const isFurther = wanted.noted?.sum !== undefined && wanted.noted.sum === last?.noted?.sum;
  const isAlike = last?.state === 'done' && last.name === wanted.name && wholeBody(last) === wholeBody(wanted);
  return isAlike && !isFurther && OPERATIONS[wanted.name].isRepeatable === true;
}

/** Asks whether a request is meant that is the same as the last one. */
export function isRepeatMeant(last) {
  const line = say('repeat.last', {asked: askedText({...last, body: wholeBody(last), noted: {}}), time: showClock(last.answered)});
  return confirmed(say('repeat.question'), say('repeat.yes'), [line]);
}

/** A difference as sentences. What was done at this machine may not be all that was done. */
function differenceSentences({cents, isOfBank}, counted, teller) {
  const difference = showAmount(Math.abs(counted - cents));
  const values = {teller, expected: showAmount(cents), counted: showAmount(counted), difference};
  const key = counted > cents ? 'count.over' : 'count.short';
  return isOfBank ? [say(`${key}.bank`, values)] : [say(key, values), say('count.elsewhere')];
}

/**
 * Asks again before a count is sent that is not what the drawer should hold, or where that is not known. Returns null where it is
 * not to be sent, else what is noted with it: {} or, from the bound on, {reason, colleague}, which the bank does not check.
 */
export async function countMeant(teller, /** @type {import('./drawer-cash.js').Known} */ known, counted) {
  if (known.cents === counted) return {};
  if (known.cents === null) {
    const lines = [say('count.unknown', {teller, counted: showAmount(counted)})];
    return await confirmed(say('count.question'), say('count.send'), lines, say('count.again')) ? {} : null;
  }
  const lines = differenceSentences(known, counted, teller);
  if (Math.abs(counted - known.cents) < DIFFERENCE_BOUND) {
    return await confirmed(say('count.question'), say('count.send'), lines, say('count.again')) ? {} : null;
  }
  return witnessFor(say('count.question'), [...lines, say('count.witness', {bound: showAmount(DIFFERENCE_BOUND)})], say('count.send'));
}
