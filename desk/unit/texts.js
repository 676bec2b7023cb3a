import {LAST_RULE, refusalText, delayText} from '../js/refusals.js';
import {WORDS} from '../js/words.js';
import {OPERATIONS, isReply} from '../js/operations.js';
import {nameOf, setNames} from '../js/names.js';
import {askedText, endText, notedText, branchOf, journalFile} from '../js/journal.js';
import {receiptOf, hasReceipt} from '../js/receipt.js';
import {BANK, CURRENCY} from '../js/settings.js';
import {toCsv} from '../js/csv.js';
import {parseMembers, bodyOf} from '../js/policy-commands.js';
import {parseMoment} from '../js/dates.js';
import {operationOf} from '../js/released.js';
import * as outcome from '../js/outcome.js';
import {same, reply, html, row} from './check.js';

const DEPOSIT = {account: 101, branch: 1, delta: 2500, teller: 11};
const TRANSFER = {amount: 500, branch: 1, source: 101, target: 102, teller: 11};

export function refusals() {
  for (let rule = 1; rule <= 22; rule += 1) same([`rule.${rule}.title` in WORDS.en, `rule.${rule}.advice` in WORDS.en], [true, true], `rule ${rule}`);
  same(LAST_RULE, 22, 'rules');
  same(refusalText({name: '<b>', rule: 99}, 'post').title, 'The bank refuses this.', 'another rule');
  same(refusalText({name: 'drawer', rule: 8}, 'drawer-on').title, 'Somebody holds that drawer already.', 'drawer on');
  same(refusalText({fault: 'M6'}, 'post').rule, 'Fault M6 of the bank', 'fault');
  same(delayText(html(502)), 'The bank isn\'t running (502).', 'a front');
  same(delayText(reply(503, {fault: 'F3'})).includes('disk'), true, 'the disk');
}

export function operations() {
  same(isReply('post', reply(200, {balance: 1, branch: 1, entry: 1})), true, 'reply of a post');
  same(isReply('post', reply(200, {balance: 1, branch: 1})), false, 'no reply of a post');
  same(isReply('post', reply(200, {balance: '<b>', branch: 1, entry: 1})), false, 'text for a number');
  same(OPERATIONS.post.asked({...DEPOSIT, delta: -2500}), 'Withdrawal of 25.00, account 101, drawer 11', 'asked');
  setNames([[8, 'Tom <b>']]);
  same([nameOf(8), nameOf(9)], ['8 (Tom <b>)', '9'], 'users by name, where it is known');
  same(OPERATIONS.release.asked({beneficiary: 8, operation: {...DEPOSIT, procedure: 'post'}}).startsWith('Release for user 8 (Tom <b>)'), true, 'in a request');
  setNames([]);
  same(OPERATIONS['new-account'].asked({account: 103, branch: 1, floor: -50}), 'New account 103 at branch 1, overdraft 0.50', 'an overdraft');
}

/** Of two accounts or two places, none is taken for the other. */
export function ends() {
  const endOf = (name, body, answer) => {
    const {label, figure, more} = OPERATIONS[name].end(body, answer);
    return [label, figure, more];
  };
  const legs = {branch: 1, first: 4, second: 5, source: 52000, target: 777};
  const whole = ['Balance of account 101', '520.00', 'Account 102 has 7.77. Entries 4 and 5 of branch 1'];
  same(endOf('transfer', TRANSFER, legs), whole, 'end of a transfer');
  const undone = {account: 101, branch: 1, delta: -500, entry: 4, other: 102, teller: 11};
  same(endOf('correct', undone, legs), whole, 'end of a transfer\'s correction');
  const single = ['Balance of account 101', '525.00', 'Entry 6 of branch 1'];
  same(endOf('correct', {...undone, other: 0}, {balance: 52500, branch: 1, entry: 6}), single, 'end of a post\'s correction');
  const moved = {moved: 2000, source: 40000, target: 123};
  const out = {amount: 2000, branch: 1, source: 11, target: 0};
  const into = {...out, source: 0, target: 11};
  same(OPERATIONS['move-cash'].asked(out), 'Cash of 20.00 from drawer 11 to the vault', 'cash out of the drawer');
  same(OPERATIONS['move-cash'].asked(into), 'Cash of 20.00 from the vault to drawer 11', 'cash into the drawer');
  same(endOf('move-cash', out, moved), ['Moved', '20.00', 'Drawer 11 has 400.00, the vault has 1.23'], 'end of cash out of the drawer');
  same(endOf('move-cash', into, moved), ['Moved', '20.00', 'The vault has 400.00, drawer 11 has 1.23'], 'end of cash into the drawer');
  const off = difference => endOf('drawer-off', {}, {difference, teller: 11, vault: 1})[0];
  same([off(-1), off(0), off(1)], ['Cash is missing', 'The count agrees', 'Cash is over'], 'differences');
}

export function journals() {
  const done = row(1, 'post', DEPOSIT, {balance: 52500, branch: 1, entry: 3});
  same(askedText(done), 'Deposit of 25.00, account 101, drawer 11', 'asked');
  same(endText(done), 'Balance of account 101: 525.00. Entry 3 of branch 1.', 'end');
  same(endText({...done, state: 'refused', reply: '{"name":"floor","rule":11}'}), 'not done: The account hasn\'t that much.', 'refused');
  const aside = {...done, state: 'aside', aside: {by: 'sue', reason: 'paid by hand', at: 9}};
  same(endText(aside), 'set aside by sue: paid by hand. It may be done or not.', 'set aside');
  same(notedText(done), '', 'nothing noted');
  const noted = notedText({...done, noted: {reason: 'till roll', colleague: 8}});
  same([noted.includes('till roll'), noted.includes('user 8')], [true, true], 'reason and colleague');
  same(journalFile([{...done, noted: {reason: 'till roll', colleague: 8}}]).includes(noted), true, 'what was noted, in the file');
  same(branchOf({body: '{"beneficiary":8,"operation":{"branch":4}}'}), 4, 'branch of a release');
  same(journalFile([done]).split('\r\n')[1].split(',').at(-1), '""entry"":3}"', 'as a file');
  same(toCsv(['a', 'b'], [['x,"y"', -5], ['=1+1', '-2'], ['l\nm', '']]), 'a,b\r\n"x,""y""",-5\r\n\'=1+1,\'-2\r\n"l\nm",\r\n', 'csv');
  for (const first of ['=', '+', '-', '@', '\t']) same(toCsv(['a'], [[`${first}x`]]), `a\r\n'${first}x\r\n`, `a cell that begins with ${first}`);
  const formulas = {'a;=1': "a;'=1", 'a\n-1': '"a\n\'-1"', "'@a": "''@a", '\uff0b1': "'\uff0b1"};
  for (const [text, out] of Object.entries(formulas)) same(toCsv([], [[text]]), `\r\n${out}\r\n`, text);
  for (const text of ['x@y', '1-2', 'a; b', '']) same(toCsv(['a'], [[text]]), `a\r\n${text}\r\n`, `not one: ${text}`);
}

export function receipts() {
  const deposit = row(1, 'post', DEPOSIT, {balance: 52500, branch: 1, entry: 3});
  const labels = (found, shows) => receiptOf(found, shows).lines.map(([label]) => label);
  same(receiptOf(deposit, true).lines.slice(0, 8), [['Branch', '1'], ['Teller', 'tess, drawer 11'], ['Account', '101'], ['Amount', '25.00'],
    ['Balance of 101', '525.00'], ['Entry', '3'], ['Currency', CURRENCY.name], ['Receipt no.', '1001']], 'deposit');
  same(receiptOf(deposit, true).bank, BANK, 'the bank\'s name');
  same(labels(deposit, false), ['Branch', 'Teller', 'Account', 'Amount', 'Entry', 'Currency', 'Receipt no.', 'Time'], 'no balance');
  const withdrawal = receiptOf(row(1, 'post', {...DEPOSIT, delta: -100}, {}), false);
  same([withdrawal.title, withdrawal.lines[3]], ['Withdrawal', ['Amount', '1.00']], 'withdrawal');
  const timeOf = (at, answered) => receiptOf({...deposit, at, answered}, false).lines.find(([label]) => label === 'Time');
  same([timeOf(0, 3600000), timeOf(0, 0)[1] === timeOf(0, 3600000)[1]], [timeOf(3600000, 3600000), false], 'the time of the reply');
  const transfer = row(2, 'transfer', TRANSFER, {branch: 1, first: 4, second: 5, source: 52000, target: 777});
  same(receiptOf(transfer, true).lines.slice(4, 7), [['Amount', '5.00'], ['Balance of 101', '520.00'], ['Entries', '4 and 5']], 'transfer');
  same(JSON.stringify(receiptOf(transfer, true)).includes('7.77'), false, 'the balance of the other account is nobody\'s here');
  same([hasReceipt(deposit), hasReceipt({...deposit, state: 'refused'}), hasReceipt(row(1, 'close-day', {}, {}))], [true, false, false], 'which');
}

/** A correction, a move of cash and a count have a paper, too. */
export function papers() {
  const own = found => receiptOf(found, false).lines.slice(2, -3);
  const undone = {account: 101, branch: 1, delta: -500, entry: 4, other: 102, teller: 11};
  same(own(row(1, 'correct', undone, {branch: 1, first: 6, second: 7, source: 1, target: 2})),
    [['Corrects entry', '4'], ['Account', '101'], ['Other account', '102'], ['Amount', '5.00'], ['Entries', '6 and 7']], 'a transfer\'s correction');
  same(own(row(1, 'correct', {...undone, other: 0}, {balance: 1, branch: 1, entry: 6})),
    [['Corrects entry', '4'], ['Account', '101'], ['Amount', '5.00'], ['Entry', '6']], 'a correction');
  same(own(row(1, 'move-cash', {amount: 2000, branch: 1, source: 11, target: 0}, {})), [['Moved', 'from drawer 11 to the vault'], ['Amount', '20.00']], 'a move');
  const count = {...row(1, 'drawer-off', {branch: 1, counted: 500, teller: 11}, {difference: -1000, teller: 11, vault: 1}), noted: {reason: 'x<b>', colleague: 8}};
  const [counted, difference, [label, noted]] = own(count);
  same([counted, difference, label], [['Counted', '5.00'], ['Cash is missing', '-10.00'], 'Note'], 'a count');
  same([noted.includes('x<b>'), noted.includes('user 8')], [true, true], 'what was noted of a count');
}

export function outcomes() {
  const panel = document.getElementById('outcome');
  const request = {name: 'post', body: JSON.stringify(DEPOSIT), slip: 1001, tries: 1, state: 'refused'};
  outcome.show('refused', request, reply(409, {name: 'floor', rule: 11}));
  same([panel.querySelector('h2').textContent, panel.firstChild.className], ['Not done', 'outcome refused'], 'a refusal');
  same([panel.firstChild.getAttribute('role'), panel.textContent.includes('Done')], ['alert', false], 'a refusal is an alert');
  outcome.show('done', {...request, state: 'done', tries: 2}, reply(200, {balance: 52500, branch: 1, entry: 3}));
  same([panel.querySelector('h2').textContent, panel.querySelector('.figure').textContent], ['Done, once: it was sent 2 times', '525.00'], 'done');
  outcome.clear();
}

export function commands() {
  same(parseMembers('account 101-150, drawer 11'), [[1, 101, 150], [5, 11, 11]], 'members');
  for (const text of ['', 'account', 'account 5-4', 'x 1', 'account 0', 'account 1;drawer 2']) same(parseMembers(text), null, `no members ${text}`);
  const grant = {user: 8, procedure: 'post', set: 2, limit: 0};
  same(bodyOf('grant', {...grant, first: null, last: null}), {body: grant}, 'grant');
  same(typeof bodyOf('grant', {...grant, first: '2026-11-28', last: '2026-11-27'}).faults.last, 'string', 'ends before');
  same([parseMoment('2026-02-31', true), parseMoment('2026-02-28 24:00', true)], [null, null], 'no such day or time');
  same(parseMoment('2026-11-28', true) - parseMoment('2026-11-28', false), 86399, 'a day');
  const {body: {first, last}} = bodyOf('grant', {...grant, first: '2026-11-28', last: '2026-11-28'});
  same([first, last], [parseMoment('2026-11-28 00:00:00', false), parseMoment('2026-11-28 23:59:59', false)], 'a grant for a day');
  const released = operationOf({procedure: 'post', branch: 1, teller: 12, way: 'out', account: 101, amount: 60000});
  same(released, {account: 101, branch: 1, delta: -60000, procedure: 'post', teller: 12}, 'released');
  const typed = {
    branch: 1, teller: 12, way: 'in', account: 101, amount: 500, source: 101, target: 102, entry: 4, other: 102, cash: 700, from: 0, to: 12,
  };
  for (const wanted of [
    {account: 101, branch: 1, delta: 500, procedure: 'post', teller: 12},
    {amount: 500, branch: 1, procedure: 'transfer', source: 101, target: 102, teller: 12},
    {account: 101, branch: 1, delta: 500, entry: 4, other: 102, procedure: 'correct', teller: 12},
    {branch: 1, cash: 700, procedure: 'drawer-on', teller: 12},
    {amount: 700, branch: 1, procedure: 'move-cash', source: 0, target: 12},
  ]) same(operationOf({...typed, procedure: wanted.procedure}), wanted, `released: ${wanted.procedure}`);
  const out = operationOf({...typed, procedure: 'correct', way: 'out', other: null});
  same(out, {account: 101, branch: 1, delta: -500, entry: 4, other: 0, procedure: 'correct', teller: 12}, 'released: a withdrawal\'s correction');
}
