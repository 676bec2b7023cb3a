// The proof of a branch as tables, with what has to agree in it.
import {h, table, button, exactToggle} from './dom.js';
import {showAmount} from './amounts.js';
import {checksOf} from './reports.js';
import {nameOf} from './names.js';
import {say} from './words.js';

/** The sums of a proof as the bank names them, in its order, each with its key. */
const SUMS = {
  'TELLERS TOTAL': 'proof.tellers', 'BRANCH BALANCE': 'proof.balance', 'HISTORY TOTAL': 'proof.history', 'OPENING BALANCE': 'proof.opening',
  'VAULT CASH': 'proof.vault', 'DRAWER CASH': 'proof.drawers', 'OPENING CASH': 'proof.openingCash', 'CASH ENTRIES': 'proof.cashEntries',
  'DIFFERENCES': 'proof.differences',
};

/** The checks of a proof, and the drawers that keep the day from being closed. */
export function checkList(proof) {
  const on = proof.tellers.filter(teller => teller.holder !== 0);
  return h('ul', {class: 'checks'},
    checksOf(proof).map(([agrees, what]) => {
      const how = agrees ? 'agrees' : 'differs';
      return h('li', {class: how}, say(`${what}.${how}`));
    }),
    on.map(({teller, holder}) => h('li', {class: 'differs'}, say('proof.held', {teller, user: nameOf(holder)}))),
    on.length === 0 ? h('li', {class: 'agrees'}, say('proof.free')) : null);
}

/** Of a proof what a teller sees: the cash of the own drawer, by the bank. */
export function ownDrawerPaper(proof, /** @type {number} */ teller, /** @type {string} */ caption) {
  const rows = proof.tellers.filter(one => one.teller === teller).map(({cash, holder}) => [teller, showAmount(cash), holderText(holder)]);
  const columns = [[say('drawer.number'), 'n'], [say('drawer.cash'), 'n'], [say('column.holder'), '']];
  return [h('div', {class: 'tools'}, button(say('print'), () => print())),
    h('div', {class: 'paper'}, h('p', {class: 'head'}, caption), table(say('proof.drawersTable'), columns, rows))];
}

const holderText = holder => (holder === 0 ? '' : nameOf(holder));

/** A proof on paper; `caption` says of which branch and day, and when it was asked for by whom. */
export function proofPaper(proof, /** @type {string} */ text, /** @type {string} */ caption) {
  const drawers = [[say('drawer.number'), 'n'], [say('drawer.cash'), 'n'], [say('column.holder'), ''], [say('proof.booked'), 'n']];
  const tellers = proof.tellers.map(({teller, balance, cash, holder}) => [
    teller, showAmount(cash), holderText(holder), showAmount(balance),
  ]);
  const sums = Object.entries(SUMS).map(([name, key]) => [say(key), showAmount(proof.sums[name])]);
  const readable = h('div', {}, h('p', {class: 'head'}, caption),
    table(say('proof.drawersTable'), drawers, tellers),
    table(say('proof.sumsTable'), [[say('column.sum'), ''], [say('amount'), 'n']], sums));
  const exact = h('div', {}, h('p', {class: 'head'}, caption), h('pre', {tabindex: 0, 'aria-label': say('exact')}, text));
  const tools = h('div', {class: 'tools'}, button(say('print'), () => print()), exactToggle(readable, exact));
  return [tools, h('div', {class: 'paper'}, readable, exact)];
}
