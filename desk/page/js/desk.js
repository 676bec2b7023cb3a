// The desk: who works here, in which session, what waits, and the ways to ask the bank.
import {send, judge} from './http.js';
import {makeQueue} from './queue.js';
import {nextSlip} from './slips.js';
import {isReply} from './operations.js';
import {askedText, branchOf} from './journal.js';
import {showAmount} from './amounts.js';
import {now} from './dates.js';
import {setNames} from './names.js';
import {keptOf, learned} from './allowed.js';
import {cashOver} from './drawer-cash.js';
import {readProof} from './reports.js';
import {refusalText} from './refusals.js';
import {isSame, isRepeatMeant} from './second-look.js';
import {say} from './words.js';

/** How often a question is asked where no reply comes. */
const QUESTION_TRIES = 4;

const isReport = ({type}) => type.startsWith('text/plain');
const isBalance = ({body}) => Number.isInteger(body?.balance);

/** Why a reply is not what was asked for. */
function failureText(/** @type {BankReply} */ reply) {
  if (reply.kind === 'none') return say('failure.none');
  if (reply.body?.rule || reply.body?.fault) return say('end.refused', {why: refusalText(reply.body, '').title});
  return say(reply.body?.front ? 'failure.front' : 'failure.unreadable');
}

/** Pauses that can be ended before their time: {wait(seconds), hurry()}. */
function makePauses() {
  const pauses = new Set(); // those that go on, each as a call that ends it
  const wait = seconds => new Promise(resolve => {
    const end = () => {
      clearTimeout(timer);
      pauses.delete(end);
      resolve(undefined);
    };
    const timer = setTimeout(end, seconds * 1000);
    pauses.add(end);
  });
  return {wait, hurry: () => [...pauses].forEach(end => end())};
}

/** What the store has of a user, and of this machine. */
async function factsOf(store, badge) {
  setNames((await store.fact('names')) ?? []);
  return {
    session: (await store.fact(`${badge} session`))?.number ?? null,
    place: (await store.fact(`${badge} place`)) ?? {branch: null, teller: null},
    shiftBegan: (await store.fact(`${badge} shift`)) ?? 0,
    rowsBefore: (await store.fact(`${badge} shift after`)) ?? 0, // the number of the last row before the shift
    allowed: keptOf((await store.fact(`${badge} allowed`)) ?? {}), // by operation or command, whether this user may do it
    dueMoves: (await store.fact('due moves')) ?? [], // of cash, after corrections, by whoever works at this machine
  };
}

/** What a desk keeps, and what it knows of its shift. */
function keptBy(/** @type {Desk} */ desk, store) {
  const {badge} = desk;
  return {
    /** The user's rows: those of this shift, or all that are kept. (By their numbers, as a clock may be set back.) */
    async rows(isAll = false) {
      const before = isAll ? 0 : desk.rowsBefore;
      return (await store.rows()).filter(row => row.badge === badge && (row.id > before || row.state === 'waiting'));
    },

    /** What touched drawers over this shift: the user's rows, and cash that others moved at this machine. */
    async drawerRows() {
      const rows = await store.rows();
      return rows.filter(row => row.id > desk.rowsBefore && (row.badge === badge || row.name === 'move-cash'));
    },

    allRows: () => store.rows(),

    /** The last request of this user that bears a number, whatever came of it. */
    lastRequest: async () => (await desk.rows(true)).filter(row => row.name !== undefined).at(-1),

    async setPlace(place) {
      desk.place = place;
      await store.setFact(`${badge} place`, place);
      desk.report('learned');
    },

    async setDueMoves(moves) {
      desk.dueMoves = moves;
      await store.setFact('due moves', moves);
    },

    /** Which sum a request in the office's queue is of, by its number there; those of long ago are left out. */
    keptAsks: async () => new Map((await store.fact(`${badge} asks`)) ?? []),
    async keepAsk(ask, sum) {
      await store.setFact(`${badge} asks`, [...await desk.keptAsks(), [ask, sum]].slice(-100));
    },

    /** New customers, each with the account that is being opened for them, until the office has them. */
    customersDue: async () => (await store.fact(`${badge} customers`)) ?? [],
    keepCustomers: customers => store.setFact(`${badge} customers`, customers),

    /** What was noted with a request of one entry that is in the office's queue, by its number there. */
    notedOfAsk: async ask => new Map((await store.fact(`${badge} noted asks`)) ?? []).get(ask) ?? {},
    async keepNoted(ask, noted) {
      await store.setFact(`${badge} noted asks`, [...(await store.fact(`${badge} noted asks`)) ?? [], [ask, noted]].slice(-100));
    },

    /** Whether the move of cash after a correction that was asked for was kept before; from now on it was. */
    async isHanded(ask) {
      const handed = (await store.fact(`${badge} handed`)) ?? [];
      if (!handed.includes(ask)) await store.setFact(`${badge} handed`, [...handed, ask].slice(-100));
      return handed.includes(ask);
    },

    async keepNames(pairs) {
      setNames(pairs);
      await store.setFact('names', pairs);
    },

    async beginShift() {
      desk.shiftBegan = now();
      desk.rowsBefore = (await store.rows()).at(-1)?.id ?? 0;
      await store.setFact(`${badge} shift`, desk.shiftBegan);
      await store.setFact(`${badge} shift after`, desk.rowsBefore);
    },

    /** Keeps in the journal what bore no number; `more` may have a paper, which can be shown and printed again. */
    note(text, reply, end, state = end ? 'done' : 'refused', more = {}) {
      const at = reply.at ?? now();
      const row = {badge, text, end: end ?? failureText(reply), state, at, answered: at, ...more};
      return store.note({...row, status: reply.status ?? 0, reply: (reply.text ?? '').slice(0, 200)});
    },

    /** Learns from a reply what this user may do: whether there is something new. */
    async learn(name, state, reply) {
      const may = learned(desk.allowed, name, state, reply.body?.rule);
      if (may === null) return false;
      desk.allowed[name] = may;
      await store.setFact(`${badge} allowed`, desk.allowed);
      return true;
    },

    /** Sets another user's request that waits aside, for good; whether it still waited. */
    async setAside(row, why) {
      const at = now();
      if (!await store.setAside(row.id, {by: badge, reason: why, at})) return false;
      const text = say('aside.of', {asked: askedText(row), badge: row.badge});
      await store.note({badge, text, end: why, state: 'done', at, answered: at, status: 0, reply: ''});
      return true;
    },
  };
}

/** The session of a desk: it is opened and ended; `sendInSession` forgets it where the bank does not know it any more. */
function sessionOf(/** @type {Desk} */ desk, store, run) {
  const {badge} = desk;
  const keepSession = session => store.setFact(`${badge} session`, session);

  async function sendInSession(request) {
    const {session} = desk;
    const reply = await send({...request, badge, session});
    if (judge(reply, () => true) === 'session' && desk.session === session) {
      desk.session = null;
      await keepSession(null);
    }
    return reply;
  }

  return {
    sendInSession,

    /** Opens a session. Its number was never before, so none of its requests' was. In the first is learned who is an officer. */
    async open() {
      const reply = await send({path: '/session', badge});
      const isOpened = judge(reply, ({body}) => Number.isInteger(body?.session)) === 'done';
      if (isOpened) {
        desk.session = reply.body.session;
        await keepSession({number: desk.session, used: 0});
        await desk.note(say('signIn'), reply, say('end.session', {session: desk.session}));
        run();
        if (desk.allowed.policy === undefined) await desk.ask('policy', null, null, () => true, () => {});
      }
      return {isOpened, reply};
    },

    async end() {
      const reply = await sendInSession({path: '/end'});
      if (judge(reply, ({body}) => Number.isInteger(body?.ended)) === 'again') return reply;
      await desk.note(say('signOut'), reply, reply.status === 200 ? say('end.sessionEnded', {session: reply.body.ended}) : null);
      desk.session = null;
      await keepSession(null);
      return reply;
    },
  };
}

/** What a desk asks that changes nothing. */
function questionsOf(/** @type {Desk} */ desk, {wait, report}) {
  function readable(reply, read, tell) {
    try {
      return read(reply);
    } catch {
      tell('unreadable');
      return null;
    }
  }

  return {
    /**
     * Asks what changes nothing, again where no reply comes. Returns what `read` makes of the reply, or null where there is none
     * to read, which `tell` hears. With a text it is kept in the journal.
     */
    async ask(name, body, text, read = reply => reply, tell = report) {
      if (!desk.session) {
        tell('nosession');
        return null;
      }
      const isAnswer = name === 'balance' ? isBalance : isReport;
      const question = name === 'policy' ? {path: '/policy', method: 'GET'} : {path: `/do/${name}`, body: JSON.stringify(body)};
      let reply = await desk.sendInSession(question);
      for (let tries = 1; judge(reply, isAnswer) === 'again' && tries < QUESTION_TRIES; tries += 1) {
        await wait(tries);
        reply = await desk.sendInSession(question);
      }
      const state = judge(reply, isAnswer);
      const found = state === 'done' ? readable(reply, read, tell) : null;
      const shown = name === 'balance' && found ? showAmount(reply.body.balance) : say('end.shown');
      if (text) await desk.note(text, reply, found === null ? null : shown);
      const isUnreadable = state === 'done' && found === null;
      if (!isUnreadable && await desk.learn(name, state, reply)) report('learned');
      if (state === 'done') return found;
      tell(state === 'again' ? 'noreply' : state, {name, text: text ?? name, kind: 'question'}, reply);
      return null;
    },

    /**
     * The balance of an account, or null where the bank does not show it to this user, or gives no reply. As nobody asked for it by a
     * key, a session that is over is said with the next request, and not here.
     */
    async balanceOf(account) {
      const {badge, session} = desk;
      if (!session) return null;
      const reply = await send({path: '/do/balance', body: JSON.stringify({account}), badge, session});
      return judge(reply, isBalance) === 'done' ? reply.body.balance : null;
    },

    /** The proof of a branch and null; or null and the rule by which the bank does not show it, or null. Neither is said. */
    async proofOf(branch) {
      let rule = null;
      const tell = (_, __, reply) => { rule = reply?.body?.rule ?? null; };
      const proof = await desk.ask('proof', {branch}, null, ({text}) => readProof(text), tell);
      desk.hidden = rule === null ? null : {branch, session: desk.session};
      return {proof, rule};
    },

    /** The same proof or null. If it was refused it is asked for once more in each session, as it may be granted since. */
    async quietProof(branch) {
      const isHidden = desk.hidden?.branch === branch && desk.hidden.session === desk.session;
      return branch === null || isHidden ? null : (await desk.proofOf(branch)).proof;
    },

    /** The name by which the office knows this user, or null: by the drawer that they put on here, whose holder the proof shows. */
    async ownName() {
      const {branch, teller} = desk.place;
      if (desk.knownName || teller === null || !cashOver(await desk.rows(true), teller).isOn) return desk.knownName ?? null;
      const holder = (await desk.quietProof(branch))?.tellers.find(one => one.teller === teller)?.holder ?? 0;
      desk.knownName = holder === 0 ? null : await desk.office.user(holder);
      return desk.knownName;
    },

    /** Whether this user works at a drawer, and so sees of a proof that drawer alone, as long as nothing shows a supervisor. */
    isTeller: () => desk.place.teller !== null && desk.allowed.release !== true && desk.allowed['close-day'] !== true,

    /** Whether this user is a supervisor of the branch of a request: whom the bank lists its proof to, and who is no teller. */
    async supervises(row) {
      const branch = branchOf(row);
      const isListed = row.badge !== desk.badge && await desk.ask('proof', {branch}, say('asked.proof', {branch})) !== null;
      if (isListed && desk.isTeller()) report('teller');
      return isListed && !desk.isTeller();
    },
  };
}

/** What a desk has done: operations, once each, and commands of the policy. */
function actionsOf(/** @type {Desk} */ desk, {store, queue, report, isMeant}) {
  return {
    /**
     * Has an operation that writes done once, and returns 'done', 'refused', or another state where it was not sent. What is
     * noted with it stays in the journal.
     */
    async act(name, body, release = null, noted = {}) {
      if (!desk.session) return report('nosession');
      if (await desk.waits()) return report('held');
      const last = await desk.lastRequest();
      const isNextPart = noted.part > 1; // which may be as the part before it
      if (!isNextPart && isSame(last, {name, body: JSON.stringify(body), noted}) && !await isMeant(last)) return 'kept';
      const session = await store.fact(`${desk.badge} session`);
      const hasSlip = session && nextSlip(session.number, session.used) !== null;
      if (!hasSlip && !(await desk.open()).isOpened) return report('nosession');
      report('clear');
      try {
        return await queue.add({name, body: JSON.stringify(body), release, noted, at: now()});
      } catch {
        return report('unkept');
      }
    },

    /** A command of the policy. It bears no number, so it is sent once: where no reply comes, the listing shows what is so. */
    async command(name, body, text) {
      if (!desk.session) return report('nosession');
      report('clear');
      const reply = await desk.sendInSession({path: `/policy/${name}`, body: JSON.stringify(body)});
      const state = judge(reply, ({body: found}) => found?.done === name);
      await desk.note(text, reply, state === 'done' ? say('state.done') : null, state === 'again' ? 'unsure' : undefined);
      if (await desk.learn(name, state, reply)) report('learned');
      report(state === 'again' ? 'unsure' : state, {name, text, kind: 'command'}, reply);
      return state;
    },
  };
}

/**
 * The desk of a badge. `report(event, request, reply)` hears what happens: sending, again, session, done and refused of a
 * request; held, nosession, unkept, noreply, unsure, teller and unreadable where one was not sent, not answered, not a
 * teller's or not read; clear; sum, once no more of a sum is sent; and learned, once it is newly known what the user
 * may do, or where they work.
 * `isMeant(last)` is asked before the same as the last request is sent.
 */
export async function makeDesk({store, badge, report, isMeant = isRepeatMeant}) {
  const {wait, hurry} = makePauses();
  const sendSlip = ({name, body, slip, release}) => desk.sendInSession({path: `/do/${name}`, slip, release, body});
  const heard = async (event, request, reply) => {
    report(event, request, reply);
    if ((event === 'done' || event === 'refused') && await desk.learn(request.name, event, reply)) report('learned');
  };
  const queue = makeQueue({journal: store.journalOf(badge), send: sendSlip, isReply, wait, report: heard});
  /** @type {Desk} */
  const desk = Object.assign(/** @type {any} */ ({badge, lastTurns: new Map()}), await factsOf(store, badge), {
    hurry, report,
    sumSent: null, // the sum that is being sent
    run: () => queue.run(),
    waiting: () => store.waiting(),
    waits: async () => (await store.waiting()).some(row => row.badge === badge),
  });
  Object.assign(desk, keptBy(desk, store), sessionOf(desk, store, () => queue.run()));
  return Object.assign(desk, questionsOf(desk, {wait, report}), actionsOf(desk, {store, queue, report, isMeant}));
}
