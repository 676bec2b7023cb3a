// Requests between colleagues, by the office's queue: whoever may not do something alone asks for a release or for a correction,
// and whoever could do that gets it on the screen, with a sound. Each asks the bank by their own card and session.
import {h, button} from './dom.js';
import {confirmed, reasonFor} from './dialog.js';
import {namesText} from './account-names.js';
import {askText, correctionOf, requestOf, wishOf} from './asks.js';
import {handedText, moveBetween} from './due-moves.js';
import {correctionsOf, newSum, operationsLeft, purposeIn, sendSum, sumOf} from './sums.js';
import {wholeOf} from './parts.js';
import {customerStrips} from './new-customers.js';
import {sumValues} from './journal.js';
import * as outcome from './outcome.js';
import {ring} from './bell.js';
import {say} from './words.js';

/** How often the office is asked, in milliseconds. */
const EVERY = 4000;

const namesIn = one => Object.entries(one.names).map(([account, names]) => h('span', {}, namesText(account, names)));
const listed = numbers => numbers.join(say('office.comma'));

/** The requests whose outcome this user has seen, kept in this browser. */
function makeSeen(badge, storage = localStorage) {
  const key = `office seen ${badge}`;
  const all = () => JSON.parse(storage.getItem(key) ?? '[]');
  return {has: number => all().includes(number), add: number => storage.setItem(key, JSON.stringify([...all(), number].slice(-100)))};
}

/** By what a new customer is known to have been seen. */
const seenAs = ({holder}) => `customer ${holder}`;

/** Has each operation of a request released in turn: the numbers of the releases, up to the first that is not given. */
async function releasesOf(/** @type {Desk} */ desk, {user, operations}) {
  const numbers = [];
  for (const [at, operation] of operations.entries()) {
    const noted = operations.length > 1 ? {part: at + 1, parts: operations.length} : {};
    if (await desk.act('release', {beneficiary: user, operation}, null, noted) !== 'done') break;
    numbers.push(JSON.parse((await desk.lastRequest()).reply).release);
  }
  return numbers;
}

/** What is done about a colleague's request: one for a release is claimed first, so that one alone asks the bank. */
function answersOf({desk, office, note, done}) {
  async function claimed(one) {
    const values = {by: listed(one.lapsed)};
    const isAgain = one.lapsed.length > 0;
    if (isAgain && !await confirmed(say('office.lapsed.question'), say('office.lapsed.yes'), [say('office.lapsed', values)])) return false;
    return done(office.claim(one.ask, isAgain));
  }

  /** Passes on what the bank gave; where it gave nothing, the request waits again. */
  async function passOn(one, numbers) {
    if (numbers.length === 0) return done(office.leave(one.ask));
    const isPassed = await done(office.answer(one.ask, one.operations.map((_, at) => numbers[at] ?? null)));
    if (!isPassed) note(say('office.failed'), say('office.number', {number: listed(numbers)}));
    return isPassed;
  }

  return {
    /** Gives the releases at the bank. */
    async give(one) {
      if (await claimed(one)) await passOn(one, await releasesOf(desk, one));
    },

    async decline(one) {
      const reason = await reasonFor(say('office.decline.question'), askText(one), say('office.decline'));
      if (reason !== '') await done(office.answer(one.ask, one.operations.map(() => null), reason));
    },

    /** Answers a request for a correction that this user has just made. */
    async noticed(request, reply) {
      if (request?.name !== 'correct') return;
      const made = JSON.parse(request.body);
      const isIt = ({wish, operations: [one]}) => wish === 'correct' && one.branch === made.branch && one.entry === made.entry;
      const one = (await office.asks())?.waiting.find(isIt);
      if (one) await done(office.answer(one.ask, [reply.body.entry ?? reply.body.first]));
    },
  };
}

/** What is sent once it was released: all of it, or what is still left of the sum. Returns the state of the last that was sent. */
async function sendReleased(/** @type {Desk} */ desk, one) {
  const kept = (await desk.keptAsks()).get(one.ask);
  if (one.operations.length === 1 && kept === undefined) {
    const {name, body} = requestOf(one.operations[0]);
    return desk.act(name, body, one.releases[0], await desk.notedOfAsk(one.ask));
  }
  const {name, body} = requestOf(wholeOf(one.operations));
  const id = kept ?? `ask ${one.ask}`;
  const sum = sumOf(await desk.rows(true), id) ?? newSum(name, body, id);
  const first = sum.count - one.operations.length + 1;
  return sendSum(desk, sum, new Map(one.releases.map((number, at) => [first + at, number])));
}

/** By the state of a request of one's own, the key of what it says. */
const OWN = {
  claimed: () => 'office.claimed', refused: () => 'office.refused', done: wish => `office.done.${wish}`, waiting: wish => `office.waits.${wish}`,
};

/** What a user's own request in the queue says, and what can be done about it. */
function ownOf({desk, office, done, seen, refresh}) {
  async function send(event, one) {
    event.target.disabled = true;
    if (await sendReleased(desk, one) === 'done') seen.add(one.ask);
    await refresh(true);
  }

  return (one, move) => {
    const numbers = listed((one.releases ?? [one.number]).filter(number => number !== null));
    const values = {asked: askText(one), by: one.answerer ?? one.claimer, number: numbers, reason: one.reason};
    const isReleased = one.state === 'done' && one.wish === 'release';
    const act = isReleased ? button(say('office.send', {number: numbers}), event => send(event, one), {class: 'main'}) : null;
    const end = ['waiting', 'claimed'].includes(one.state) ? button(say('office.back'), () => done(office.withdraw(one.ask)))
      : button(say('office.seen'), () => { seen.add(one.ask); return refresh(); });
    return h('div', {class: 'ask', 'data-ask': one.ask}, h('p', {}, say((OWN[one.state] ?? OWN.waiting)(one.wish), values)),
      move ? handedText(desk, move) : null, act, act ? ' ' : null, end);
  };
}

/**
 * The queue on the page. `strip` is where it is shown; `note(title, text)` says what came of something; `asked(name)` is called
 * once what was refused of an operation waits for a colleague.
 */
export function makeAsking({desk, office, strip, note, asked = async _ => {}, seen = makeSeen(desk.badge)}) {
  let shown = '';
  let known = new Set();
  const moves = new Map(); // by request: the move of cash that is due after it, or null

  async function refresh(isAnew = false) {
    const found = await office.asks();
    if (!found) return; // what is shown stays while the office gives no reply
    const mine = found.mine.filter(one => one.state !== 'withdrawn' && !seen.has(one.ask));
    const numbers = [...found.waiting.map(one => one.ask), ...(found.proposals ?? []).map(one => seenAs(one))];
    const isNew = numbers.some(one => !known.has(one));
    known = new Set(numbers);
    for (const one of mine) if (!moves.has(one.ask) && one.state === 'done') moves.set(one.ask, await moveBetween(desk, one));
    const customers = customerStrips(found, onCustomers, one => seen.has(seenAs(one)));
    const all = JSON.stringify([found.waiting, mine, found.proposals, found.proposed, customers.length]);
    if (!isAnew && all === shown) return;
    shown = all;
    strip.replaceChildren(...found.waiting.map(ofColleague), ...mine.map(one => ofOwn(one, moves.get(one.ask))), ...customers);
    if (isNew) ring();
  }

  /** Does something with the office, says where that failed, and shows the queue anew. */
  async function done(promise) {
    const reply = await promise;
    if (reply?.status !== 200) note(say('office.failed'), reply?.body.office ?? say('office.absent'));
    await refresh();
    return reply?.status === 200;
  }

  const {give, decline, noticed} = answersOf({desk, office, note, done});
  const ofOwn = ownOf({desk, office, done, seen, refresh});
  const onCustomers = {
    accept: one => done(office.accept(one.holder, one.accounts)),
    takeBack: one => done(office.takeBack(one.holder, one.accounts)),
    see: one => { seen.add(seenAs(one)); return refresh(); },
  };

  function ofColleague(one) {
    if (one.state === 'claimed' && one.claimer !== desk.badge) {
      return h('div', {class: 'ask', 'data-ask': one.ask}, h('p', {}, say('office.claimed', {by: one.claimer, asked: askText(one)})));
    }
    const act = one.wish === 'release' ? button(say('office.give'), () => give(one), {class: 'main'})
      : h('a', {href: `#${correctionOf(one.operations[0])}`}, say('office.correct'));
    return h('div', {class: 'ask', 'data-ask': one.ask}, h('p', {}, say(`office.asked.${one.wish}`, {name: one.name, asked: askText(one)})),
      h('p', {class: 'names'}, namesIn(one)), act, ' ', button(say('office.decline'), () => decline(one)));
  }

  /** Asks colleagues, and says so; of a sum the page keeps which it is, and of one entry its purpose. */
  async function askFor(wish, operations, sum = null, noted = {}) {
    const reply = await office.ask(wish, operations);
    if (sum && reply?.status === 200) await desk.keepAsk(reply.body.ask, sum.id);
    if (noted.purpose && reply?.status === 200) await desk.keepNoted(reply.body.ask, noted);
    if (!await done(Promise.resolve(reply))) return false;
    note(say('office.isAsked'), say(`office.isAsked.${wish}`, {asked: askText({operations})}));
    return true;
  }

  const offerButton = (wish, operations, sum, noted) => h('p', {}, button(say(`office.ask.${wish}`), async event => {
    event.target.disabled = true;
    if (await askFor(wish, operations, sum, noted)) await asked(operations[0].procedure);
  }));

  return {
    refresh, noticed, askFor,

    /** A button that asks colleagues for what was refused, or null. */
    offer(request, reply) {
      const wish = wishOf(request?.name, reply?.body?.rule);
      return wish === null ? null : offerButton(wish, [{...JSON.parse(request.body), procedure: request.name}], null, purposeIn(request.noted));
    },

    /** The same for what is left of a sum, once with its total. */
    offerSum(sum) {
      const last = sum.rows.at(-1);
      const rule = last.state === 'refused' ? JSON.parse(last.reply).rule : null;
      return wishOf(sum.name, rule) === null ? null : offerButton('release', operationsLeft(sum), sum);
    },

    /** Asks colleagues to correct what is booked of a sum, entry by entry. */
    async takeBack(sum) {
      for (const correction of correctionsOf(sum)) {
        if (!await askFor('correct', [correction])) {
          outcome.add(h('p', {}, say('parts.backHow', sumValues(sum))));
          return;
        }
      }
    },

    /** Looks at the queue from now on, as long as a session is open. */
    start() {
      const look = () => (desk.session && document.visibilityState !== 'hidden' ? refresh() : null);
      setInterval(look, EVERY);
      return look();
    },
  };
}
