// The journal of requests, and facts to remember, in IndexedDB. A transaction that keeps a slip is strict: it is on the disk
// before it completes. (What localStorage got last is lost where the browser is killed.)
import {nextSlip} from './slips.js';
import {now} from './dates.js';
import {JOURNAL_DAYS} from './settings.js';

const DAY = 86400000;

/**
 * What a request of the browser's store has in the end.
 * @template T
 * @param {IDBRequest<T>} request
 * @returns {Promise<T>}
 */
function resultOf(request) {
  return new Promise((resolve, reject) => {
    request.onsuccess = () => resolve(request.result);
    request.onerror = () => reject(request.error);
  });
}

async function opened(name) {
  const opening = indexedDB.open(name, 1);
  opening.onupgradeneeded = () => {
    const requests = opening.result.createObjectStore('requests', {keyPath: 'id', autoIncrement: true});
    requests.createIndex('state', 'state');
    requests.createIndex('at', 'at');
    opening.result.createObjectStore('facts');
  };
  return resultOf(opening);
}

export async function openStore(name = 'desk') {
  const base = await opened(name);

  /** Carries `work` out in a transaction, and returns its result once all of it is kept. */
  function kept(mode, durability, work) {
    return new Promise((resolve, reject) => {
      const transaction = base.transaction(['requests', 'facts'], mode, {durability});
      let result;
      transaction.oncomplete = () => resolve(result);
      transaction.onabort = () => reject(transaction.error ?? new Error('not kept'));
      work(transaction.objectStore('requests'), transaction.objectStore('facts')).then(value => { result = value; }, error => {
        reject(error);
        transaction.abort();
      });
    });
  }

  const waiting = () => kept('readonly', 'default', requests => resultOf(requests.index('state').getAll('waiting')));

  return {
    fact: key => kept('readonly', 'default', (_, facts) => resultOf(facts.get(key))),
    setFact: (key, value) => kept('readwrite', 'strict', (_, facts) => resultOf(facts.put(value, key))),
    rows: () => kept('readonly', 'default', requests => resultOf(requests.getAll())),
    waiting,
    /** Keeps what bore no slip, once it was answered. */
    note: row => kept('readwrite', 'relaxed', requests => resultOf(requests.add(row))),
    /** Removes what was asked longer ago than the journal is kept, and no longer waits. */
    forget: at => kept('readwrite', 'relaxed', async requests => {
      const old = IDBKeyRange.upperBound(at - JOURNAL_DAYS * DAY, true);
      for (const row of await resultOf(requests.index('at').getAll(old))) {
        if (row.state !== 'waiting') await resultOf(requests.delete(row.id));
      }
    }),
    /** Ends the waiting of a request that was not answered; whether it still waited. */
    setAside: (id, aside) => kept('readwrite', 'strict', async requests => {
      const row = await resultOf(requests.get(id));
      if (row?.state !== 'waiting') return false;
      await resultOf(requests.put({...row, state: 'aside', aside, answered: aside.at}));
      return true;
    }),
    journalOf: badge => journalOf(badge, kept, waiting),
  };
}

/** The journal of one user, for their queue. */
function journalOf(badge, kept, waiting) {
  return {
    write: wanted => kept('readwrite', 'strict', async (requests, facts) => {
      const session = await resultOf(facts.get(`${badge} session`));
      const slip = session && nextSlip(session.number, session.used);
      if (!slip) throw new Error('no slip is left: open a session');
      await resultOf(facts.put({...session, used: session.used + 1}, `${badge} session`));
      const request = {...wanted, badge, slip, tries: 0, state: 'waiting'};
      request.id = await resultOf(requests.add(request));
      return request;
    }),
    firstWaiting: async () => (await waiting()).find(row => row.badge === badge),
    tried: request => kept('readwrite', 'relaxed', requests => resultOf(requests.put(request))),
    strike: (request, state, reply) => {
      Object.assign(request, {state, status: reply.status, reply: reply.text, answered: reply.at ?? now()});
      return kept('readwrite', 'strict', requests => resultOf(requests.put(request)));
    },
  };
}
