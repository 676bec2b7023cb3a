// What a refusal means at the counter and what to do, by the table "What the counter gets" of docs/GUIDE.md.
import {say} from './words.js';

/** The last rule of the bank. */
export const LAST_RULE = 22;

/** Rules that say another thing of some operations. */
const SPECIAL = {8: ['drawer-on', 'move-cash']};

/** Faults that have texts of their own. */
const FAULTS = ['M6', 'F2'];

/** A refusal in plain words: {title, advice, rule}. `name` is the operation that was refused. */
export function refusalText(body, name) {
  if ('rule' in body) {
    const isKnown = body.rule >= 1 && body.rule <= LAST_RULE;
    const key = !isKnown ? 'rule.unknown' : SPECIAL[body.rule]?.includes(name) ? `rule.${body.rule}.${name}` : `rule.${body.rule}`;
    return {title: say(`${key}.title`), advice: say(`${key}.advice`), rule: say('rule', {rule: body.rule})};
  }
  const key = FAULTS.includes(body.fault) ? `fault.${body.fault}` : 'fault.unknown';
  return {title: say(`${key}.title`), advice: say(`${key}.advice`), rule: say('fault', {fault: body.fault})};
}

/** Why there is no reply that decides anything yet, as a sentence. */
export function delayText(/** @type {BankReply} */ reply) {
  if (reply.kind === 'none') return say(reply.isLate ? 'delay.late' : 'delay.unreachable');
  if (reply.body?.fault === 'F1') return say('delay.memory');
  if (reply.body?.fault) return say('delay.disk');
  if (reply.body?.front === 'certificate') return say('delay.certificate');
  switch (reply.status) {
    case 412: return say('delay.otherCard');
    case 429: return say('delay.tooMany');
    case 502: case 503: case 504: return say('delay.down', {status: reply.status});
    default: return say('delay.strange', {status: reply.status});
  }
}
