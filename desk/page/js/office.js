// The office beside the bank, if it is there: names on accounts, and the queue of requests between colleagues. What it answers
// decides nothing at the bank. Without it each question gets null, and the page works as ever.
import {send} from './http.js';

/** How long a reply is awaited, in seconds; how long an office that gave none is let alone, and names stay known, in milliseconds. */
const SECONDS = 4;
const PAUSE = 30000;
const FRESH = 300000;
/** The same of what stands beside an account, which may be a warning. */
const FACTS_FRESH = 30000;

/** What the office can be asked by a badge. `ask` sends, as `send` does. */
export function makeOffice(badge, ask = send, now = Date.now) {
  const known = new Map(); // by account: {names, at}
  const facts = new Map(); // by account: {facts, at}
  let pausedUntil = 0;
  let isThere = false;

  /** The reply as {status, body}, or null where the office gave none. */
  async function asked(path, body) {
    if (now() < pausedUntil) return null;
    const request = {path: `/office/api/${path}`, badge, ...(body === undefined ? {method: 'GET'} : {body: JSON.stringify(body)})};
    const reply = await ask(request, SECONDS);
    const isAnswer = reply.kind === 'reply' && reply.body !== null && !('front' in reply.body);
    if (!isAnswer && reply.status !== 429) pausedUntil = now() + PAUSE;
    isThere = isAnswer;
    return isAnswer ? reply : null;
  }

  /** What was known of an account is asked for anew once this is done. */
  async function forgetting(account, promise) {
    const reply = await promise;
    for (const one of [known, facts]) one.delete(account);
    return reply;
  }

  return {
    /** The names of those who own each account, by account; an account whose name is not shown has none. */
    async names(accounts) {
      const wanted = [...new Set(accounts)].filter(one => !(known.get(one)?.at > now() - FRESH));
      if (wanted.length > 0) {
        const reply = await asked(`names?accounts=${wanted.join()}`);
        if (reply?.status !== 200) return null;
        for (const one of wanted) known.set(one, {names: reply.body.accounts[one] ?? [], at: now()});
      }
      return new Map(accounts.map(one => [one, known.get(one).names]));
    },

    /** Who holds each account, and how low it may be, by account; one that the bank does not show to this user has none. */
    async accounts(accounts) {
      const wanted = [...new Set(accounts)].filter(one => !(facts.get(one)?.at > now() - FACTS_FRESH));
      if (wanted.length > 0) {
        const reply = await asked(`accounts?accounts=${wanted.join()}`);
        if (reply?.status !== 200) return null;
        for (const one of wanted) facts.set(one, {facts: reply.body.accounts[one] ?? {holders: [], floor: null}, at: now()});
      }
      return new Map(accounts.map(one => [one, facts.get(one).facts]));
    },

    /** Who holds an account, each with all accounts of theirs, or null. */
    customersOf: async account => (await asked(`accounts/${account}/customers`))?.body.holders ?? null,

    /** Proposes a new customer as the owner of an account that was opened, accepts one as a second person, or takes one back. */
    propose: (account, texts) => forgetting(account, asked('customers', {account, ...texts})),
    accept: (number, accounts) => forgetting(accounts[0], asked(`customers/${number}/accept`, {})),
    takeBack: (number, accounts) => forgetting(accounts[0], asked(`customers/${number}/withdraw`, {})),

    /** The day of a branch that was open when the office's copy was made, or null. */
    dayOf: async branch => (await asked(`day?branch=${branch}`))?.body.day ?? null,

    /** Keeps the purpose of entries. */
    keepPurpose: ({branch, day, numbers, text}) => asked('notes', {branch, day, row: 'entry', numbers, kind: 'purpose', text}),

    /** The purposes of the entries of an account: {made, purposes}, or null. */
    async purposes(account) {
      const reply = await asked(`purposes?account=${account}`);
      return reply?.status === 200 ? reply.body : null;
    },

    /** Whether it answered when it was last asked. */
    isThere: () => isThere,

    /** The name of a user by number, or null. */
    user: async number => (await asked('names?accounts='))?.body.users?.[number] ?? null,

    /** The holders whom a search finds, or null. */
    search: async text => (await asked('search', {q: text}))?.body.holders ?? null,

    /** What waits for this user, and what they asked for: {waiting, mine}, or null. */
    async asks() {
      const reply = await asked('queue');
      return reply?.status === 200 ? reply.body : null;
    },

    ask: (wish, operations) => asked('asks', {wish, operations}),
    /** Claims a request before the bank is asked, so that one alone does; `isAgain` where a claim ran out without an answer. */
    claim: (number, isAgain) => asked(`asks/${number}/claim`, isAgain ? {again: true} : {}),
    /** Passes on the numbers that the bank gave, one or null for each operation, or a reason why there is none. */
    answer: (number, releases, reason = '') => asked(`asks/${number}/answer`, {releases, reason}),
    leave: number => asked(`asks/${number}/leave`, {}),
    withdraw: number => asked(`asks/${number}/withdraw`, {}),
  };
}
