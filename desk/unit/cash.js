import {cashFromElsewhere, cashOver, expectedCash, knownOf} from '../js/drawer-cash.js';
import {axisMarks} from '../js/chart.js';
import {same, row} from './check.js';

const ROWS = [
  row(1, 'drawer-on', {branch: 1, cash: 40000, teller: 11}, {cash: 40000, teller: 11, vault: 60000}),
  row(2, 'post', {account: 101, branch: 1, delta: 2500, teller: 11}, {}),
  row(3, 'transfer', {amount: 5, branch: 1, source: 101, target: 102, teller: 11}, {}),
  row(4, 'correct', {account: 101, branch: 1, delta: 500, entry: 9, other: 0, teller: 11}, {}),
  row(5, 'move-cash', {amount: 2000, branch: 1, source: 11, target: 0}, {moved: 2000, source: 40000, target: 1}),
  row(6, 'drawer-off', {branch: 1, counted: 39900, teller: 11}, {difference: -100, teller: 11, vault: 1}),
];
const cashOf = ({points}) => points.map(point => point.cash);

export function cash() {
  const whole = cashOver(ROWS, 11);
  same([cashOf(whole), whole.difference, whole.isKnown, whole.isOn], [[40000, 42500, 42000, 40000, 39900], -100, true, false], 'cash');
  const part = cashOver(ROWS.slice(1, 2), 11);
  same([cashOf(part), part.isKnown], [[2500], false], 'cash since');
  same(cashOf(cashOver([ROWS[1], ROWS[5]], 11)), [40000, 39900], 'cash known by the count');
  const into = row(5, 'move-cash', {amount: 2000, branch: 1, source: 0, target: 11}, {moved: 2000, source: 1, target: 44000});
  same(cashOf(cashOver([...ROWS.slice(0, 4), into], 11)), [40000, 42500, 42000, 44000], 'cash that comes into the drawer');
  same(cashOf(cashOver([ROWS[1], into], 11)), [42000, 44000], 'cash known by what comes into the drawer');
  same(expectedCash([...ROWS.slice(0, 4), into], 11), 44000, 'expected after cash has come in');
  same(cashOver(ROWS, 12).points, [], 'another drawer');
  same([expectedCash(ROWS.slice(0, 4), 11), expectedCash(ROWS.slice(1, 4), 11), expectedCash(ROWS, 11)], [42000, null, null], 'expected');
  same(expectedCash([{...ROWS[0]}, {...ROWS[1], state: 'refused'}], 11), 40000, 'what was refused moved nothing');
  for (const [low, high] of [[0, 1], [0, 42500], [-5000, 99999], [0, 99999999]]) {
    const marks = axisMarks(low, high);
    same([marks[0] <= low, marks.at(-1) >= high, marks.length <= 8], [true, true, true], `marks ${low} ${high}`);
  }
}

/** The bank's own figure is taken first, and what it has more than was done here came from elsewhere. */
export async function cashOfBank() {
  const proof = (cents, holder = 7) => ({tellers: [{teller: 11, balance: 5, cash: cents, holder}, {teller: 12, balance: 5, cash: 1, holder: 8}]});
  const deskOf = (found, isAllowed = true, waits = false) => ({
    place: {branch: 1, teller: 11}, allowed: {proof: isAllowed}, quietProof: async () => found, drawerRows: async () => ROWS.slice(0, 4),
    waits: async () => waits,
  });
  same(await knownOf(deskOf(proof(92000)), 11), {isOn: true, cents: 92000, isOfBank: true}, 'by the bank');
  same(await knownOf(deskOf(proof(0, 0)), 11), {isOn: false, cents: null, isOfBank: true}, 'nobody holds it');
  same(await knownOf(deskOf(null), 11), {isOn: true, cents: 42000, isOfBank: false}, 'by what was done here');
  same(await cashFromElsewhere(deskOf(proof(92000))), {teller: 11, cash: 92000, difference: 50000}, 'from elsewhere');
  const none = [deskOf(proof(42000)), deskOf(null), deskOf(proof(92000), false), deskOf(proof(92000), true, true), deskOf(proof(0, 0))];
  same(await Promise.all(none.map(cashFromElsewhere)), [null, null, null, null, null], 'nothing, or nobody can say');
}
