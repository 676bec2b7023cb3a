// What keeps money from going wrong at a counter that is right.
import post from '../js/screens/post.js';
import correct from '../js/screens/correct.js';
import moveCash from '../js/screens/move-cash.js';
import {isSame} from '../js/second-look.js';
import {isDue, moveAfter, withoutMove} from '../js/cash-due.js';
import {moveBetween} from '../js/due-moves.js';
import {keepDraft, restoreDraft} from '../js/drafts.js';
import {counting} from '../js/counting.js';
import {showAmount} from '../js/amounts.js';
import {DENOMINATIONS} from '../js/settings.js';
import {makeDesk} from '../js/desk.js';
import {openStore} from '../js/store.js';
import {same, row, sent, shown} from './check.js';

const inputOf = (room, name) => room.querySelector(`[data-name="${name}"] input`);
const chosenOf = room => room.querySelector('[data-name="way"] input:checked')?.value ?? null;
const press = (input, key) => input.dispatchEvent(new KeyboardEvent('keydown', {key, bubbles: true, cancelable: true}));
const buttonOf = room => room.querySelector('button[type=submit]');

function type(room, values) {
  for (const [name, value] of Object.entries(values)) {
    const input = inputOf(room, name);
    input.value = value;
    input.dispatchEvent(new Event('input', {bubbles: true}));
  }
}

/** No way is chosen until a letter chooses it, nor after a request that is done; the button says what it would do. */
export async function ways() {
  const {room, asked} = await shown(post, {state: 'done'});
  type(room, {account: '101', amount: '25.00'});
  same([chosenOf(room), buttonOf(room).textContent], [null, 'Choose deposit or withdrawal'], 'no way at first');
  await sent(room);
  same([asked.length, room.querySelector('[data-name="way"] .error').textContent !== ''], [0, true], 'nothing is sent without a way');
  for (const [key, way, delta, text] of [['w', 'out', -2500, 'Pay out 25.00'], ['D', 'in', 2500, 'Pay in 25.00']]) {
    type(room, {account: '101', amount: '25.00'});
    same(press(inputOf(room, 'account'), key), false, `the letter ${key} is not typed`);
    same([chosenOf(room), buttonOf(room).textContent], [way, text], `by ${key}`);
    await sent(room);
    same([asked.at(-1), chosenOf(room)], [['post', {account: 101, branch: 1, delta, teller: 11}, null, {}], null], `sent, and no way after it: ${way}`);
  }
  room.remove();
}

export function repeats() {
  const last = row(1, 'post', {account: 101, delta: 4200}, {});
  const again = {name: 'post', body: last.body};
  same([isSame(last, again), isSame(undefined, again)], [true, false], 'the same');
  for (const name of ['transfer', 'move-cash', 'release']) same(isSame({...last, name}, {...again, name}), true, `the same ${name}`);
  same(isSame({...last, state: 'refused'}, again), false, 'what was refused may be sent again');
  same(isSame(last, {name: 'post', body: '{"account":101,"delta":4201}'}), false, 'another amount');
  same(isSame({...last, name: 'drawer-off'}, {name: 'drawer-off', body: last.body}), false, 'what the bank refuses the second time');
}

/** A correction says whose drawer moves, and the move of cash that is due after it. */
export async function moves() {
  const body = {account: 101, branch: 1, delta: 12000, entry: 4, other: 0, teller: 11};
  const due = {branch: 1, source: 12, target: 11, amount: 12000};
  same(moveAfter(body, 12), due, 'after a deposit\'s correction');
  same(moveAfter({...body, delta: -12000}, 12), {...due, source: 11, target: 12}, 'after a withdrawal\'s correction');
  same([moveAfter(body, 11), moveAfter(body, null), moveAfter({...body, other: 102}, 12)], [null, null, null], 'no move');
  same([withoutMove([due, due], due).length, withoutMove([due], {...due, amount: 1}).length], [1, 1], 'what is still due');
  const {room, asked} = await shown(correct, {address: 'entry=4&account=101&way=out&amount=120.00&drawer=12'});
  same([...room.querySelectorAll('[data-name="kind"] input')].map(input => [input.value, input.checked]),
    [['out', false], ['out-transfer', false]], 'what a statement leaves open');
  await sent(room);
  same(asked.length, 0, 'nothing is sent before it is said what the entry was');
  room.querySelector('[value="out"]').click();
  const text = room.querySelector('[data-name="reads"]').textContent;
  same(['drawer 11, which is yours', '120.00 more', 'drawer 12'].filter(piece => !text.includes(piece)), [], 'whose drawer moves');
  room.querySelector('[value="out-transfer"]').click();
  same([inputOf(room, 'other').closest('.field').hidden, inputOf(room, 'drawer').closest('.field').hidden], [false, true], 'of a transfer');
  room.remove();
  const noon = new Date(2026, 10, 28, 12).getTime();
  same([isDue({...due, at: noon - 60000}, noon), isDue({...due, at: noon - 86400000}, noon)], [true, false], 'due on its day alone');
  await movesOffered({...due, at: Date.now()});
}

async function movesOffered(due) {
  const own = {...due, source: 11, target: 12};
  const {desk, room, asked} = await shown(moveCash, {address: 'from=11&to=12&amount=120.00', state: 'done', dueMoves: [due, own]});
  same([...room.querySelectorAll('.due a')].map(link => link.getAttribute('href')), ['#cash?from=11&to=12&amount=120.00'], 'offered');
  await sent(room);
  same([asked, desk.dueMoves], [[['move-cash', {amount: 12000, branch: 1, source: 11, target: 12}, null]], [due]], 'moved, and no longer due');
  room.remove();
}

/** What was typed is there again, way and all; of what was sent nothing is. */
export async function drafts() {
  const typed = await shown(post);
  press(inputOf(typed.room, 'account'), 'w');
  keepDraft('post', typed.room, false);
  const bare = await shown(post);
  restoreDraft('post', bare.room);
  same(chosenOf(bare.room), null, 'a way alone is not kept');
  type(typed.room, {account: '101', amount: '25.00', release: '3'});
  keepDraft('post', typed.room, false);
  restoreDraft('post', bare.room);
  const found = ['account', 'amount', 'release'].map(name => inputOf(bare.room, name).value);
  same([chosenOf(bare.room), ...found, buttonOf(bare.room).textContent], ['out', '101', '25.00', '3', 'Pay out 25.00'], 'what was typed');
  keepDraft('post', (await shown(post)).room, false);
  const after = await shown(post);
  restoreDraft('post', after.room);
  same([chosenOf(after.room), inputOf(after.room, 'account').value], [null, ''], 'nothing is left');
  for (const room of document.querySelectorAll('body > section:not([id])')) room.remove();
}

/** Who asked for a correction is shown whom to hand the cash, by the drawers at which entry and correction were made. */
export async function handed() {
  const lines = [{branch: 1, entry: 4, teller: 11, turn: 1}, {branch: 2, entry: 9, teller: 21, turn: 2}, {branch: 1, entry: 9, teller: 12, turn: 3}];
  const operation = {procedure: 'correct', account: 101, branch: 1, delta: 12000, entry: 4, other: 0, teller: 11};
  const askOf = (more = {}) => ({ask: 5, wish: 'correct', operations: [{...operation, ...more}], number: 9});
  const desk = {
    place: {branch: 1, teller: 11}, lastTurns: new Map(), ask: async () => lines, isHanded: async () => false, dueMoves: [],
    setDueMoves: async found => { desk.dueMoves = found; },
  };
  const move = {branch: 1, source: 11, target: 12, amount: 12000};
  same(await moveBetween(desk, askOf()), move, 'a deposit that was corrected at drawer 12');
  same(desk.dueMoves.map(({at: _at, ...found}) => found), [move], 'it is offered');
  same(await moveBetween(desk, askOf({delta: -12000})), {...move, source: 12, target: 11}, 'a withdrawal');
  same(desk.dueMoves.length, 1, 'what another has to hand is not offered');
  same([await moveBetween(desk, askOf({other: 102})), await moveBetween(desk, {...askOf(), wish: 'release'})], [null, null], 'no cash');
}

/** An amount that is typed beside a count is the count, to the cent. */
export function countedAndTyped() {
  const {row: drawn, read} = counting('cash', 'Cash');
  const [counts, typed] = [[...drawn.querySelectorAll('.count')], drawn.querySelector('.amount')];
  counts[0].value = '2';
  const [first] = DENOMINATIONS;
  for (const [more, is] of [[-1, false], [0, true], [1, false]]) {
    typed.value = showAmount(2 * first + more);
    same([read().value === 2 * first, read().fault === undefined], [is, is], `typed is ${more} more than the count`);
  }
}

/** A waiting request is set aside by somebody else, to whom the bank lists the proof of its branch. */
export async function aside() {
  indexedDB.deleteDatabase('aside');
  const store = await openStore('aside');
  await store.setFact('sue session', {number: 7, used: 0});
  const asked = [];
  const {fetch} = window;
  window.fetch = async path => {
    asked.push(path);
    return new Response('', {headers: {'Content-Type': 'text/plain'}});
  };
  try {
    const desk = await makeDesk({store, badge: 'sue', report: () => {}});
    const waiting = {badge: 'sue', state: 'waiting', name: 'post', body: '{"branch":1}'};
    same([await desk.supervises(waiting), asked], [false, []], 'one\'s own');
    same([await desk.supervises({...waiting, badge: 'tess'}), asked], [true, ['/do/proof']], 'another\'s');
  } finally {
    window.fetch = fetch;
  }
}
