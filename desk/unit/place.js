// Where somebody works: what is said of a branch and a drawer that may be wrong.
import {hasWorkedAt, placeDoubt} from '../js/place.js';
import drawer from '../js/screens/drawer.js';
import session from '../js/screens/session.js';
import {same, reply, row, sent} from './check.js';

const DEPOSIT = {account: 101, branch: 1, delta: 2500, teller: 11};
const WORKED = [row(1, 'post', DEPOSIT, {}), {...row(2, 'post', {...DEPOSIT, teller: 13}, {}), state: 'refused'},
  {state: 'done', text: 'Sign in'}];

/** A desk whose bank shows this proof, or refuses it by this rule, and which keeps where its user works. */
function deskAt(place, {proof = null, rule = null, allowed = {}, rows = WORKED, refusedBy = 0} = {}) {
  const desk = {
    session: 1, badge: 'tess', place, allowed, shifts: 0,
    proofOf: async () => ({proof, rule}), quietProof: async () => proof, rows: async () => rows,
    drawerRows: async () => rows, setPlace: async found => { desk.place = found; },
    beginShift: async () => { desk.shifts += 1; }, waits: async () => false, act: async () => 'refused',
    lastRequest: async () => ({reply: JSON.stringify({name: 'x', rule: refusedBy})}),
  };
  return desk;
}

export async function worked() {
  const desk = deskAt({branch: null, teller: null});
  const at = (branch, teller) => hasWorkedAt(desk, {branch, teller});
  const places = [[1, 11], [1, null], [1, 12], [1, 13], [2, 11], [2, null]];
  same(await Promise.all(places.map(place => at(...place))), [true, true, false, false, false, false], 'worked');
  const panelOf = (request, rule) => placeDoubt(desk, request, reply(403, {name: 'x', rule}));
  const doubt = async (body, rule) => (await panelOf({body: JSON.stringify(body)}, rule))?.textContent ?? null;
  const text = 'You have done nothing at branch 9, drawer 99 on this machine so far: look at these two numbers, too. '
    + 'Sign in and out';
  const wrong = {...DEPOSIT, branch: 9, teller: 99};
  for (const rule of [2, 3, 6, 7]) same(await doubt(wrong, rule), text, `nothing was done there, rule ${rule}`);
  same(await Promise.all([doubt(wrong, 4), doubt(wrong, 11), doubt(DEPOSIT, 3), doubt({branch: 9}, 3)]),
    [null, null, null, null], 'no doubt');
  same(await panelOf({text: 'Balance', kind: 'question'}, 3), null, 'a question');
}

/** Fills in a screen and sends it, as often as is said: what its fields say last, and where its user works then. */
async function filledIn(screen, desk, values, times = 1) {
  const signIn = async () => { desk.session = 1; return true; };
  const shell = {given: new URLSearchParams(), again: async () => {}, changed() {}, first: () => 'post', signIn};
  const room = document.body.appendChild(document.createElement('section'));
  room.append(...[(await screen.make(desk, shell)).elements].flat().filter(Boolean));
  for (const [name, value] of Object.entries(values)) room.querySelector(`[data-name="${name}"] input`).value = value;
  for (let time = 0; time < times; time += 1) await sent(room);
  room.remove();
  const faults = [...room.querySelectorAll('.error')].map(one => one.textContent).filter(Boolean);
  return [faults.join(), desk.place.branch, desk.place.teller];
}

export async function signIns() {
  const before = {branch: null, teller: null};
  const signedIn = (found, branch, teller, times) => filledIn(session, deskAt(before, found), {branch, teller}, times);
  const hidden = 'The bank shows you nothing of branch 9. If the number is right, send it again.';
  same(await signedIn({rule: 2}, 9, 99), [hidden, null, null], 'a branch that nobody is shown');
  same(await signedIn({rule: 2}, 9, 99, 2), ['', 9, 99], 'and sent again');
  same(await signedIn({rule: 2}, 1, 11), ['', 1, 11], 'and worked at before');
  same(await signedIn({rule: 3}, 9, 99), ['', 9, 99], 'a branch that others may be shown');
  same(await signedIn({rule: 3, allowed: {proof: true}}, 9, 99), [hidden, null, null], 'one who is shown another');
  same(await signedIn({rule: 6}, 9, 99), ['There is no branch 9.', null, null], 'no branch');
  const proof = {tellers: [{teller: 11, holder: 0}]};
  same(await signedIn({proof}, 1, 99), ['Branch 1 has no drawer 99.', null, null], 'no drawer');
  same(await signedIn({proof}, 1, 11), ['', 1, 11], 'a drawer that is free');
  const late = deskAt(before, {rule: 2});
  late.session = null;
  await filledIn(session, late, {branch: 9, teller: 99}, 2);
  same([late.session, late.shifts], [1, 1], 'a session that began with a doubt begins a shift');
  const moved = filledIn(session, deskAt({branch: 1, teller: 12}, {rule: 3}), {branch: 1, teller: 14});
  same(await moved, ['', 1, 14], 'where nothing was done before, no question is asked');
}

/** A drawer that the bank refuses is said beside its field, whatever else is on the screen. */
export async function drawerFaults() {
  const not = 'Branch 1 has no drawer 99';
  const both = `${not}, or you have no authorization for it.`;
  for (const [refusedBy, fault] of [[2, both], [3, both], [6, `${not}.`], [7, `${not}.`], [4, ''], [8, ''], [12, '']]) {
    const desk = deskAt({branch: 1, teller: null}, {refusedBy});
    same(await filledIn(drawer, desk, {teller: 99, cash: '0'}), [fault, 1, null], `refused by rule ${refusedBy}`);
  }
}
