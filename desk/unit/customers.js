// What stands beside an account, new customers with their accounts, and the purposes of entries.
import {cardLines, drawnOf, inOneLine, shownName} from '../js/account-card.js';
import {accountSettled, openAccount, resumeCustomers} from '../js/new-customers.js';
import {duePurposes, notedPurpose, purposesOf} from '../js/purposes.js';
import {actInParts, bookedRow, sumOf} from '../js/sums.js';
import {receiptOf} from '../js/receipt.js';
import {notedText} from '../js/journal.js';
import {deskOf, reply, row, same} from './check.js';

const ANN = {name: 'Ann', may: 'owns', address: 'Lane 1\nTown', born: '1961-12-31', warning: '', proposer: ''};

export function besideAccounts() {
  const facts = {holders: [ANN, {...ANN, name: 'Bob', may: 'acts', address: '', born: '', warning: 'Ask first'}], floor: -30000};
  same(cardLines(101, facts, 5000).map(line => line.join(': ')), [
    ': 101: Ann (born Dec 31, 1961, Lane 1, Town)', ': May act for 101: Bob', 'warning: Warning, Bob: Ask first',
    ': Balance of 101: 50.00', ': May be drawn from 101: 350.00'], 'all of an account');
  const proposed = {holders: [{...ANN, address: '', born: '', proposer: 'tess'}], floor: 0};
  same(cardLines(101, proposed, 5000).map(([, text]) => text), ['101: Ann (not accepted yet)',
    'Ann waits for a second person: proposed by tess', 'Balance of 101: 50.00'], 'a name that is not accepted');
  same([cardLines(101, {holders: [], floor: null}, null), cardLines(101, undefined, null)], [[['', '101: no name']], []], 'no name, and no office');
  same([drawnOf(-20000, -30000), drawnOf(-40000, -30000), drawnOf(5, 0), drawnOf(5, null), drawnOf(null, -5)], [10000, 0, null, null, null], 'drawn');
  same([shownName('Ann (?)'), shownName('Ann')], ['Ann (not accepted yet)', 'Ann'], 'the mark of the office');
  same(inOneLine(' Lane 1\n\nTown '), 'Lane 1, Town', 'an address');
}

/** A desk that keeps a customer; its account ends with `state`, and the office answers so. */
function customerDesk(state, answer, rows = []) {
  const desk = {
    kept: [], proposed: [], rows: async () => rows, act: async () => state,
    keepCustomers: async customers => { desk.kept = customers; }, customersDue: async () => desk.kept,
    office: {propose: async (...given) => { desk.proposed.push(given); return answer; }},
  };
  return desk;
}

const BODY = {account: 150, branch: 1, floor: 0};
const JO = {name: 'Jo', address: '', born: '', document: 'P 7'};

export async function openedFor() {
  for (const [state, event, answer, proposed, isKept] of [
    ['done', 'done', reply(200, {holder: 7}), 1, false], ['refused', 'refused', reply(200, {}), 0, false], ['held', null, null, 0, false],
    ['done', 'done', null, 1, true], ['done', 'done', reply(409, {office: 'has one'}), 1, true],
  ]) {
    const desk = customerDesk(state, answer);
    desk.kept = [{account: 149, ...JO}];
    await openAccount(/** @type {any} */ (desk), BODY, JO);
    if (event) await accountSettled(/** @type {any} */ (desk), {name: 'new-account', body: JSON.stringify(BODY)}, event);
    const given = proposed === 1 ? [[150, JO]] : [];
    same([desk.proposed, desk.kept.map(one => one.account)], [given, isKept ? [149, 150] : [149]], `an account that is ${state}, and ${answer?.status}`);
  }
  const other = customerDesk('done', reply(200, {}));
  await openAccount(/** @type {any} */ (other), BODY, JO);
  await accountSettled(/** @type {any} */ (other), {name: 'new-account', body: JSON.stringify({...BODY, account: 151})}, 'done');
  same(other.proposed, [], 'of another account');
}

/** A customer who is left when the page is closed is proposed if the account is open, and kept as long as that is not known. */
export async function leftCustomers() {
  for (const [state, proposed, isKept] of [['done', 1, false], ['waiting', 0, true], ['refused', 0, false], [null, 0, false]]) {
    const rows = state ? [{...row(1, 'new-account', BODY, {account: 150, branch: 1}), state}] : [];
    const desk = customerDesk('done', reply(200, {}), rows);
    desk.kept = [{account: 150, ...JO}];
    await resumeCustomers(/** @type {any} */ (desk));
    same([desk.proposed.length, desk.kept.length === 1], [proposed, isKept], `left, and ${state}`);
  }
}

export async function purposes() {
  const desk = {place: {branch: 1}, quietProof: async () => ({day: 4}), office: {dayOf: async () => 3}};
  same(await notedPurpose(/** @type {any} */ (desk), ' Rent '), {purpose: 'Rent', day: 4}, 'the day by the proof');
  same(await notedPurpose(/** @type {any} */ ({...desk, quietProof: async () => null}), 'Rent'), {purpose: 'Rent', day: 3}, 'by the office');
  same(await notedPurpose(/** @type {any} */ (desk), null), {}, 'no purpose');
  const noted = {purpose: 'Rent', day: 4};
  const post = {...row(1, 'post', {account: 101, branch: 1, delta: 5, teller: 11}, {balance: 5, branch: 1, entry: 8}), id: 1, noted};
  const transfer = {...row(2, 'transfer', {amount: 5}, {branch: 1, first: 9, second: 10, source: 1, target: 2}), id: 2, noted};
  const rows = [post, transfer, {...post, id: 3, state: 'refused', reply: '{"rule":4}'}, {...post, id: 4, noted: {}}];
  same(duePurposes(rows, []).map(({id, numbers, day}) => [id, numbers, day]), [[1, [8], 4], [2, [9, 10], 4]], 'what is due');
  same(duePurposes(rows, [1]).map(({id}) => id), [2], 'what was kept');
  same([notedText(post), receiptOf(post, false).lines.find(([label]) => label === 'Purpose')[1]], ['Purpose: Rent', 'Rent'], 'journal and receipt');
  const answer = {made: 100, purposes: [{branch: 1, entry: 8, moment: 50, text: 'Rent'}, {branch: 1, entry: 9, moment: null, text: 'New'}]};
  const lines = [{branch: 1, entry: 8, moment: 50}, {branch: 1, entry: 9, moment: 120}];
  same([...purposesOf(answer, lines)], [['1 8', 'Rent'], ['1 9', 'New']], 'of a statement');
  same([...purposesOf(answer, lines.map(one => ({...one, moment: 60})))], [], 'entries of another year');
}

/** Each part of a sum has its purpose, also those that are sent after a refusal, and so has the receipt. */
export async function purposesOfParts() {
  const desk = deskOf(['done', 'done', 'done']);
  const body = {account: 101, branch: 1, delta: 2500000, teller: 11};
  await actInParts(/** @type {any} */ (desk), 'post', body, null, {purpose: 'House', day: 4});
  same(desk.kept.map(one => [one.noted.purpose, one.noted.day]), [['House', 4], ['House', 4], ['House', 4]], 'in each part');
  same(bookedRow(sumOf(desk.kept, desk.kept[0].noted.sum)).noted, {purpose: 'House', day: 4}, 'of the receipt');
}
