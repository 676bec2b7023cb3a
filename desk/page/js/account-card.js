// What stands beside an account that is typed, before anything is sent: who owns it and who may act, by the office; what is on it and
// what may be drawn, by the bank.
import {h} from './dom.js';
import {showAmount} from './amounts.js';
import {showDay} from './dates.js';
import {say} from './words.js';

/** @typedef {{name: string, may: string, address: string, born: string, warning: string, proposer: string}} AccountHolder */
/** @typedef {{holders: AccountHolder[], floor: number | null}} AccountFacts `floor` is how low it may be, or null where that is not shown. */

/** The mark that the office puts after a name which a second person has not accepted. */
const UNACCEPTED = / \(\?\)$/;

/** A name as it is shown, with the office's mark in the language of the page. */
export const shownName = (/** @type {string} */ name) => (UNACCEPTED.test(name)
  ? say('customer.unaccepted', {name: name.replace(UNACCEPTED, '')}) : name);

/** A date of the register, 1961-12-31, as people read it. */
export const shownDate = (/** @type {string} */ date) => (date === '' ? '' : showDay(new Date(`${date}T12:00:00`).getTime()));

/** An address in one line. */
export const inOneLine = (/** @type {string} */ address) => address.split('\n').map(line => line.trim()).filter(Boolean).join(say('office.comma'));

/** A holder by name, date of birth and address, by which namesakes differ. */
function holderText(/** @type {AccountHolder} */ {name, born, address, proposer}) {
  const facts = [born === '' ? '' : say('customer.born', {date: shownDate(born)}), inOneLine(address)].filter(Boolean);
  const shown = proposer === '' ? name : say('customer.unaccepted', {name});
  return facts.length === 0 ? shown : say('customer.facts', {name: shown, facts: facts.join(say('office.comma'))});
}

/** What may be drawn of an account, or null where it is its balance, or not shown. */
export function drawnOf(/** @type {number | null} */ balance, /** @type {number | null | undefined} */ floor) {
  if (balance === null || typeof floor !== 'number' || floor === 0) return null;
  return Math.max(0, balance - floor);
}

/** The lines of an account: [class, text]. */
export function cardLines(/** @type {number} */ account, /** @type {AccountFacts | undefined} */ facts, /** @type {number | null} */ balance) {
  const {holders = [], floor = null} = facts ?? {};
  const of = role => holders.filter(one => one.may === role).map(holderText).join('; ');
  const [owners, actors, drawn] = [of('owns'), of('acts'), drawnOf(balance, floor)];
  return [
    ...facts ? [['', owners === '' ? say('office.unknown', {account}) : say('office.names', {account, names: owners})]] : [],
    ...actors === '' ? [] : [['', say('account.acts', {account, names: actors})]],
    ...holders.filter(one => one.warning !== '').map(({name, warning}) => ['warning', say('account.warning', {name, warning})]),
    ...holders.filter(one => one.proposer !== '').map(({name, proposer}) => ['warning', say('customer.waits', {name, by: proposer})]),
    ...balance === null ? [] : [['', say('account.has', {account, balance: showAmount(balance)})]],
    ...drawn === null ? [] : [['', say('account.drawn', {account, amount: showAmount(drawn)})]],
  ];
}

/** An account as lines of a form, with a way to all accounts of whoever owns it. */
export function accountCard(/** @type {number} */ account, /** @type {AccountFacts | undefined} */ facts, /** @type {number | null} */ balance) {
  const all = facts && facts.holders.length > 0 ? h('a', {href: `#find?account=${account}`}, say('customer.all')) : null;
  return h('div', {'data-account': account}, cardLines(account, facts, balance).map(([kind, text]) => h('p', {class: kind}, text)), all);
}
