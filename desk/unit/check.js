// What the unit tests stand on.

export const failed = [];
let held = 0;
export const count = () => held + failed.length;

export function same(found, wanted, what) {
  const [a, b] = [JSON.stringify(found), JSON.stringify(wanted)];
  if (a === b) held += 1;
  else failed.push(`${what}: ${a}, and not ${b}`);
}

export function throws(work, what) {
  let hasThrown = false;
  try {
    work();
  } catch {
    hasThrown = true;
  }
  same(hasThrown, true, what);
}

/** Replies as `send` returns them. */
export const reply = (status, body) => ({kind: 'reply', status, body, text: JSON.stringify(body), type: 'application/json'});
export const html = status => ({kind: 'reply', status, body: null, text: '<h1>', type: 'text/html'});
export const none = {kind: 'none', isLate: false};

/** A row of the journal that was answered. */
export const row = (at, name, body, answer) => ({
  badge: 'tess', state: 'done', name, slip: 1000 + at, at, answered: at, tries: 1, body: JSON.stringify(body), reply: JSON.stringify(answer),
});

/** A screen in a room of its own, at a desk that keeps what it is asked for; `act` is what becomes of it. */
export async function shown(screen, {address = '', state = 'refused', dueMoves = []} = {}) {
  const asked = [];
  const act = async (...request) => {
    asked.push(request);
    return state;
  };
  const desk = {place: {branch: 1, teller: 11}, act, customersDue: async () => [], keepCustomers: async () => {}, dueMoves, setDueMoves: async moves => { desk.dueMoves = moves; }};
  const {elements} = await screen.make(desk, {given: new URLSearchParams(address), again: async () => {}});
  const room = document.body.appendChild(document.createElement('section'));
  room.append(...[elements].flat().filter(Boolean));
  return {desk, room, asked};
}

/** Sends the form of a room, and waits until it has settled. */
export async function sent(room) {
  room.querySelector('form').requestSubmit();
  await new Promise(resolve => setTimeout(resolve));
}

/** A desk whose requests end with these states, and which keeps them; `balance` is what the bank shows. */
export function deskOf(states, balance = 99999999) {
  const [asked, rows] = [[], []];
  const act = async (name, body, release, noted = {}) => {
    const state = states[asked.length];
    asked.push([name, body, release]);
    const entry = 2 * asked.length;
    const done = name === 'transfer' ? {branch: 1, first: entry, second: entry + 1, source: 7, target: 8} : {balance: 900 + entry, branch: 1, entry};
    const answer = JSON.stringify(state === 'done' ? done : {name: 'limit', rule: 4});
    const kept = {badge: 'tess', name, body: JSON.stringify(body), noted, state, reply: answer, slip: 1000 + asked.length, tries: 1};
    if (state !== 'kept') rows.push({...kept, at: 1, answered: 2});
    return state;
  };
  return {asked, kept: rows, act, rows: async () => rows, session: 1, waits: async () => false, balanceOf: async () => balance, sumSent: null,
    report: () => {}};
}
