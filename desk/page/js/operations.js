// The operations that write: the members of a reply to each, and what a request and its reply mean in plain words.
import {showAmount, showChange} from './amounts.js';
import {nameOf} from './names.js';
import {say} from './words.js';

/**
 * @typedef {{label: string, figure: string, more: string}} End What came of a request.
 * @typedef {{members: string[], isRepeatable?: boolean, asked: (body: any) => string, end: (body: any, reply: any) => End}}
 *   Operation
 */

/** Which of a move's places is the vault: a part of keys. */
export const placesOf = ({source, target}) => (source === 0 ? 'fromVault' : target === 0 ? 'toVault' : 'between');

function endOfPost(body, reply) {
  return {label: say('end.balance', body), figure: showAmount(reply.balance), more: say('end.entry', reply)};
}

function endOfTransfer(source, target, reply) {
  const values = {...reply, account: target, balance: showAmount(reply.target)};
  return {label: say('end.balance', {account: source}), figure: showAmount(reply.source), more: say('end.transfer', values)};
}

/**
 * By name: `members` of a reply, which are whole numbers; `isRepeatable`, if it moves money each time it is sent: of any
 * other the bank refuses the second; `asked(body)`; `end(body, reply)`.
 * @type {Record<string, Operation>}
 */
export const OPERATIONS = {
  'post': {
    members: ['balance', 'branch', 'entry'], isRepeatable: true,
    asked: b => say(b.delta < 0 ? 'asked.withdrawal' : 'asked.deposit', {...b, amount: showAmount(Math.abs(b.delta))}),
    end: endOfPost,
  },
  'transfer': {
    members: ['branch', 'first', 'second', 'source', 'target'], isRepeatable: true,
    asked: b => say('asked.transfer', {...b, amount: showAmount(b.amount)}),
    end: (b, r) => endOfTransfer(b.source, b.target, r),
  },
  'correct': {
    members: ['branch'],
    asked: b => say(b.other === 0 ? 'asked.correct' : 'asked.correctTransfer', {...b, change: showChange(b.delta)}),
    end: (b, r) => (b.other === 0 ? endOfPost(b, r) : endOfTransfer(b.account, b.other, r)),
  },
  'drawer-on': {
    members: ['cash', 'teller', 'vault'],
    asked: b => say('asked.drawerOn', {...b, cash: showAmount(b.cash)}),
    end: (b, r) => ({label: say('end.drawerOn', r), figure: showAmount(r.cash), more: say('end.vault', {vault: showAmount(r.vault)})}),
  },
  'drawer-off': {
    members: ['difference', 'teller', 'vault'],
    asked: b => say('asked.drawerOff', {...b, counted: showAmount(b.counted)}),
    end: (b, r) => ({
      label: differenceText(r.difference), figure: showAmount(r.difference),
      more: say('end.drawerOff', {teller: r.teller, vault: showAmount(r.vault)}),
    }),
  },
  'move-cash': {
    members: ['moved', 'source', 'target'], isRepeatable: true,
    asked: b => say(`asked.move.${placesOf(b)}`, {...b, amount: showAmount(b.amount)}),
    end: (b, r) => ({
      label: say('end.moved'), figure: showAmount(r.moved),
      more: say(`end.move.${placesOf(b)}`, {...b, left: showAmount(r.source), there: showAmount(r.target)}),
    }),
  },
  'new-account': {
    members: ['account', 'branch'],
    asked: b => say('asked.newAccount', {...b, overdraft: showAmount(-b.floor)}),
    end: (b, r) => ({label: say('end.newAccount'), figure: String(r.account), more: say('end.home', {...r, balance: showAmount(0)})}),
  },
  'release': {
    members: ['beneficiary', 'release'], isRepeatable: true,
    asked: b => say('asked.release', {user: nameOf(b.beneficiary), asked: OPERATIONS[b.operation.procedure].asked(b.operation)}),
    end: (b, r) => ({label: say('end.release'), figure: String(r.release), more: say('end.released', {user: nameOf(r.beneficiary)})}),
  },
  'close-day': {
    members: ['balance', 'cash', 'closed', 'entries'],
    asked: b => say('asked.closeDay', b),
    end: (b, r) => ({
      label: say('end.closed', {...b, day: r.closed}), figure: showAmount(r.balance),
      more: say('end.closedCash', {vault: showAmount(r.cash), count: r.entries}),
    }),
  },
};

/** All that can be allowed: these, and the questions. */
export const PROCEDURES = [...Object.keys(OPERATIONS), 'balance', 'statement', 'accounts', 'proof'];

export function differenceText(difference) {
  if (difference === 0) return say('count.agrees');
  return say(difference < 0 ? 'count.missing' : 'count.surplus');
}

/** Whether a 200 is a reply to this operation. */
export function isReply(/** @type {string} */ name, /** @type {BankReply} */ reply) {
  return reply.body !== null && OPERATIONS[name].members.every(member => Number.isInteger(reply.body[member]));
}
