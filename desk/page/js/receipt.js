// What is printed of a request: for a customer of a deposit, a withdrawal or a transfer; for the books of a correction, a move of
// cash or a count.
import {showAmount} from './amounts.js';
import {showTime} from './dates.js';
import {centsOf} from './parts.js';
import {notedText} from './journal.js';
import {differenceText, placesOf} from './operations.js';
import {BANK, CURRENCY} from './settings.js';
import {say} from './words.js';

/** @typedef {[string, string | number]} Line A label and its value. */

/** By operation: the key of its title, and its own lines between those that all have. */
const RECEIPTS = {
  'post': {title: b => (b.delta < 0 ? 'way.out' : 'way.in'), lines: postLines},
  'transfer': {title: () => 'procedure.transfer', lines: transferLines},
  'correct': {title: () => 'procedure.correct', lines: correctLines},
  'move-cash': {title: () => 'procedure.move-cash', lines: b => [moveLine(b), amountLine(b.amount)]},
  'drawer-on': {title: () => 'procedure.drawer-on', lines: b => [line('counted', showAmount(b.cash))]},
  'drawer-off': {title: () => 'procedure.drawer-off', lines: countLines},
};

/** @returns {Line} */
const line = (key, value) => [say(`receipt.${key}`), value];
const amountLine = cents => line('amount', showAmount(cents));
const moveLine = b => line('moved', say(`receipt.move.${placesOf(b)}`, b));
const balanceLine = (account, cents) => [say('receipt.balance', {account}), showAmount(cents)];
const entriesLine = r => line('entries', say('receipt.both', r));

/** The entries of a request; of one in parts each with its amount. */
function entryLines({reply, parts}) {
  if (!parts) return [JSON.parse(reply)].map(r => (r.entry === undefined ? entriesLine(r) : line('entry', r.entry)));
  return parts.map(row => {
    const found = JSON.parse(row.reply);
    return [say(found.entry === undefined ? 'receipt.parts' : 'receipt.part', found), showAmount(centsOf(JSON.parse(row.body)))];
  });
}

const purposeLines = row => (row.noted?.purpose ? [/** @type {Line} */ ([say('purpose'), row.noted.purpose])] : []);

function postLines(b, r, shows, row) {
  const balance = shows ? [balanceLine(b.account, r.balance)] : [];
  return [line('account', b.account), amountLine(Math.abs(b.delta)), ...purposeLines(row), ...balance, ...entryLines(row)];
}

function transferLines(b, r, shows, row) {
  const balance = shows ? [balanceLine(b.source, r.source)] : [];
  return [line('from', b.source), line('to', b.target), amountLine(b.amount), ...purposeLines(row), ...balance, ...entryLines(row)];
}

function correctLines(b, r, shows, row) {
  const accounts = b.other === 0 ? [line('account', b.account)] : [line('account', b.account), line('other', b.other)];
  return [line('corrects', b.entry), ...accounts, amountLine(Math.abs(b.delta)), ...entryLines(row)];
}

function countLines(b, r, shows, row) {
  const noted = notedText(row);
  const difference = [differenceText(r.difference), showAmount(r.difference)];
  return [line('counted', showAmount(b.counted)), difference, ...noted ? [line('noted', noted)] : []];
}

/** Whether a row of the journal has a receipt. */
export function hasReceipt(/** @type {JournalRow} */ row) {
  return row.state === 'done' && row.name in RECEIPTS;
}

/**
 * The account whose balance a receipt shows, or null. That of an account which a transfer pays is nobody's at this counter.
 */
export function accountOf(/** @type {JournalRow} */ row) {
  const body = JSON.parse(row.body);
  if (row.name === 'post') return body.account;
  return row.name === 'transfer' ? body.source : null;
}

/**
 * The receipt of a row, or of what is booked of a sum: {title, lines}, each line [label, value]. Without `showsBalance` it has no
 * balance; `name` is the teller's, where it is known.
 */
export function receiptOf(/** @type {JournalRow} */ row, /** @type {boolean} */ showsBalance, /** @type {string | null} */ name = null) {
  const [body, reply] = [JSON.parse(row.body), JSON.parse(row.reply)];
  const {title, lines} = RECEIPTS[row.name];
  const own = lines(body, reply, showsBalance, row);
  const badge = name ?? row.badge;
  const teller = body.teller === undefined ? badge : say('receipt.atDrawer', {badge, teller: body.teller});
  return {bank: BANK, title: say(title(body)), lines: [
    line('branch', body.branch), line('teller', teller), ...own,
    line('currency', CURRENCY.name), line('number', (row.parts ?? [row]).map(one => one.slip).join(say('office.comma'))),
    line('time', showTime(row.answered)),
  ].map(([label, value]) => [label, String(value)])};
}
