// What bears a slip acts once. Each request is kept with its slip before it is sent, sent in order, sent again until the bank
// has answered, and struck off then. What is kept outlasts the page, the browser and the bank.
import {judge} from './http.js';

/** Seconds before the next try. */
export function pause(tries) {
  return Math.min(15, 2 ** Math.max(0, tries - 1));
}

/**
 * `journal` has write(request), firstWaiting(), tried(request) and strike(request, state, reply); `send` sends a request and
 * returns the reply; `isReply` says whether a 200 is the operation's; `wait` waits seconds; `report` hears what happens.
 */
export function makeQueue({journal, send, isReply, wait, report}) {
  const promises = new Map();
  let isRunning = false;
  let isAsked = false;

  /** Sends one request once; whether the next can be sent, which may be the same again. */
  async function step(request) {
    request.tries += 1;
    await journal.tried(request);
    report('sending', request);
    const reply = await send(request);
    const state = judge(reply, found => isReply(request.name, found));
    if (state === 'session' || state === 'again') {
      report(state, request, reply);
      if (state === 'again') await wait(pause(request.tries));
      return state === 'again';
    }
    await journal.strike(request, state, reply);
    report(state, request, reply);
    promises.get(request.id)?.(state);
    promises.delete(request.id);
    return true;
  }

  async function run() {
    isAsked = true;
    if (isRunning) return;
    isRunning = true;
    try {
      while (isAsked) {
        isAsked = false;
        let request = await journal.firstWaiting();
        while (request && await step(request)) request = await journal.firstWaiting();
      }
    } finally {
      isRunning = false;
    }
  }

  return {
    run,
    /** Keeps the request, has it sent, and returns 'done' or 'refused', however long that takes. */
    async add(wanted) {
      const request = await journal.write(wanted);
      const end = new Promise(resolve => promises.set(request.id, resolve));
      run();
      return end;
    },
  };
}
