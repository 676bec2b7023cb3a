// A receipt on paper: it is printed alone, and is not on the screen.
import {h} from './dom.js';
import {ownersOf} from './account-names.js';
import {accountOf, receiptOf} from './receipt.js';
import {PAPER} from './settings.js';
import {say} from './words.js';

const paper = document.getElementById('receipt');

/** Prints the receipt of a row of the journal, with the balance where the bank shows it to this user. */
export async function printReceipt(/** @type {Desk} */ desk, /** @type {JournalRow} */ row) {
  const account = accountOf(row);
  const {bank, title, lines} = receiptOf(row, account !== null && await desk.balanceOf(account) !== null, await desk.ownName());
  for (const name of account === null ? [] : await ownersOf(desk, account)) lines.push([say('office.holder', {account}), name]);
  paper.replaceChildren(h('p', {class: 'bank'}, bank), h('h2', {}, title),
    h('dl', {}, lines.map(([label, value]) => h('div', {}, h('dt', {}, label), h('dd', {}, value)))),
    h('p', {class: 'sign'}, say('receipt.sign')));
  paper.className = PAPER === 'A5' ? 'a5' : 'roll';
  document.body.classList.add('prints-receipt');
  print();
}

/** What is printed of a screen that has no paper of its own: the panel with what came of a request, or what is typed. */
addEventListener('beforeprint', () => {
  const hasPaper = document.querySelector('#work .paper, body.prints-receipt') !== null;
  document.body.classList.toggle('prints-screen', !hasPaper);
});

addEventListener('afterprint', () => {
  document.body.classList.remove('prints-receipt', 'prints-screen');
  paper.replaceChildren();
});
