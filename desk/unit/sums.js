// An amount in parts is one sum: what is done, what is left, and what is sent of it.
import {partsOf, inParts, wholeOf, withCents, MOST_AT_ONCE} from '../js/parts.js';
import {actInParts, bookedRow, correctionsOf, lastSum, linesOf, newSum, operationsLeft, sendSum, sumOf} from '../js/sums.js';
import {askedText, endText} from '../js/journal.js';
import {receiptOf} from '../js/receipt.js';
import {isSame} from '../js/second-look.js';
import {deskOf, same} from './check.js';

const DEPOSIT = {account: 101, branch: 1, delta: 2500000, teller: 11};
const WITHDRAWAL = {...DEPOSIT, delta: -1500000};
const TRANSFER = {amount: 1500000, branch: 1, source: 101, target: 102, teller: 11};
const centsOf = ([, body]) => body.delta ?? body.amount;

export function parts() {
  for (const [cents, wanted] of [[1, [1]], [999999, [999999]], [1000000, [999999, 1]], [2500000, [999999, 999999, 500002]]]) {
    same(partsOf(cents), wanted, `${cents} in parts`);
  }
  same([partsOf(MOST_AT_ONCE).length, new Set(partsOf(MOST_AT_ONCE)).size], [100, 1], 'the most at once');
  same(inParts(999999, 'x'), 'x', 'one part');
  same(inParts(2500000, 'x').includes('3') && inParts(2500000, 'x').startsWith('x'), true, 'three parts');
  same([withCents(WITHDRAWAL, 5).delta, withCents(DEPOSIT, 5).delta, withCents(TRANSFER, 5).amount], [-5, 5, 5], 'the same way');
  same(wholeOf([{...WITHDRAWAL, delta: -999999}, {...WITHDRAWAL, delta: -500001}]), WITHDRAWAL, 'the whole of parts');
}

export async function sentInParts() {
  const one = deskOf(['done']);
  same(await actInParts(one, 'post', {...DEPOSIT, delta: 2500}, 7), 'done', 'one');
  same([one.asked, one.kept[0].noted], [[['post', {...DEPOSIT, delta: 2500}, 7]], {}], 'one as ever, with its release');
  const three = deskOf(['done', 'done', 'done']);
  same(await actInParts(three, 'post', DEPOSIT, 5), 'done', 'three');
  same(three.asked.map(request => [centsOf(request), request[2]]), [[999999, 5], [999999, null], [500002, null]], 'three parts');
  const noted = three.kept.map(row => [row.noted.part, row.noted.parts, row.noted.total]);
  same([noted, new Set(three.kept.map(row => row.noted.sum)).size], [[[1, 3, 2500000], [2, 3, 2500000], [3, 3, 2500000]], 1], 'of one sum');
  const none = deskOf(['refused']);
  same([await actInParts(none, 'post', DEPOSIT, null), none.asked.length], ['refused', 1], 'nothing after a first part that is refused');
}

/** After a refusal what is left is known to the cent, and that alone is sent, each part with its release. */
export async function leftOfSums() {
  const desk = deskOf(['done', 'refused', 'done', 'refused', 'done']);
  same(await actInParts(desk, 'post', DEPOSIT, null), 'done', 'for the form it is done: the panel has what is left');
  const {sum: id} = desk.kept[0].noted;
  const begun = sumOf(desk.kept, id);
  same([desk.asked.length, begun.done.length, begun.doneCents, begun.leftCents, begun.isWhole], [2, 1, 999999, 1500001, false], 'one of three');
  same(operationsLeft(begun).map(one => [one.procedure, one.delta]), [['post', 999999], ['post', 500002]], 'what is to be released');
  await sendSum(desk, begun, new Map([[2, 31], [3, 32]]));
  same(desk.asked.slice(2).map(request => [centsOf(request), request[2]]), [[999999, 31], [500002, 32]], 'what is left, with its releases');
  same(sumOf(desk.kept, id).leftCents, 500002, 'less is left');
  await sendSum(desk, sumOf(desk.kept, id));
  const whole = sumOf(desk.kept, id);
  same([desk.asked.length, whole.isWhole, whole.left, whole.doneCents], [5, true, [], 2500000], 'all of it, once');
  same([lastSum(desk.kept).id, sumOf(desk.kept, 'x')], [id, null], 'the last sum');
  const waiting = desk.kept.map(row => (row.noted.part === 3 ? {...row, state: 'waiting'} : row));
  same([sumOf(waiting, id).left, sumOf(waiting, id).isWaiting], [[], true], 'what waits is not sent again');
}

/** One line of the journal and one receipt. */
export async function shownSums() {
  const desk = deskOf(['done', 'done']);
  await actInParts(desk, 'post', WITHDRAWAL, null);
  const [line, ...more] = linesOf(desk.kept);
  same([more.length, line.state, askedText(line)], [0, 'done', 'Withdrawal of 15,000.00, account 101, drawer 11'], 'one line');
  same(endText(line), 'Balance of account 101: 9.04. Entries 2, 4.', 'what came of it');
  same(askedText(desk.kept[1]), 'Withdrawal of 15,000.00, account 101, drawer 11: part 2 of 2, 5,000.01', 'a part');
  const {title, lines} = receiptOf(bookedRow(line.sum), true);
  same([title, ...lines.slice(2, 7)], ['Withdrawal', ['Account', '101'], ['Amount', '15,000.00'], ['Balance of 101', '9.04'], ['Entry 2', '9,999.99'], ['Entry 4', '5,000.01']], 'one receipt');
  same(lines.find(([label]) => label === 'Receipt no.')[1], '1001, 1002', 'its numbers');
  const plain = {...desk.kept[0], noted: {}};
  same([linesOf([plain, ...desk.kept]).map(one => one.sum?.count), lastSum([plain])], [[undefined, 2], null], 'what is no sum is none');
  const half = deskOf(['done', 'refused']);
  await actInParts(half, 'transfer', TRANSFER, null);
  const [begun] = linesOf(half.kept);
  same([begun.state, endText(begun)], ['partly', 'Booked: 9,999.99 of 15,000.00. Left: 5,000.01.'], 'a sum that is begun');
  same(receiptOf(bookedRow(begun.sum), false).lines[4], ['Amount', '9,999.99'], 'a receipt of what is booked');
  const back = {account: 101, branch: 1, delta: -999999, entry: 2, other: 102, procedure: 'correct', teller: 11};
  same(correctionsOf(begun.sum), [back], 'what takes a transfer back');
  same(correctionsOf(line.sum).map(one => [one.entry, one.delta, one.other]), [[2, -999999, 0], [4, -500001, 0]], 'what takes a withdrawal back');
}

/** The same sum once more is asked about, its next part is not. */
export function sameSums() {
  const row = (sum, part, delta, total = 1500000) => ({name: 'post', state: 'done', body: JSON.stringify({...DEPOSIT, delta}), noted: {sum, part, total}});
  same(isSame(row('a', 1, 999999), row('a', 2, 500001)), false, 'the next part');
  same(isSame(row('a', 2, 500001), row('b', 1, 999999)), true, 'the same sum');
  same(isSame(row('a', 2, 500001), row('b', 1, 999999, 1500002)), false, 'another sum');
  same(isSame(row('a', 2, 500001), row('b', 1, -999999)), false, 'the other way');
  same(isSame(row('a', 2, 500001), {name: 'post', body: JSON.stringify({...DEPOSIT, delta: 500001})}), false, 'as its last part');
}

/** Answers the question that is open, and returns its text; `at` is the button. */
async function answered(at) {
  await new Promise(resolve => setTimeout(resolve));
  const box = document.querySelector('dialog');
  const text = box?.textContent ?? '';
  box?.querySelectorAll('button')[at].click();
  return text;
}

/** What the account has not, or what is not known, is asked about before the first part. */
export async function coveredSums() {
  for (const [balance, piece] of [[1499999, '0.01 more'], [null, 'shows you no balance']]) {
    for (const [at, state, count] of [[0, 'kept', 0], [1, 'done', 2]]) {
      const desk = deskOf(['done', 'done'], balance);
      const end = sendSum(desk, newSum('post', WITHDRAWAL));
      const text = await answered(at);
      same([text.includes(piece), await end, desk.asked.length], [true, state, count], `${piece}, answer ${at}`);
    }
  }
  for (const [balance, name, body] of [[1500000, 'post', WITHDRAWAL], [0, 'post', {...WITHDRAWAL, delta: 1500000}], [1500000, 'transfer', TRANSFER]]) {
    const desk = deskOf(['done', 'done'], balance);
    same([await sendSum(desk, newSum(name, body)), document.querySelector('dialog')], ['done', null], `no question: ${name}`);
  }
}
