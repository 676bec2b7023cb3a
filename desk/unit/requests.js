import {judge} from '../js/http.js';
import {nextSlip} from '../js/slips.js';
import {pause, makeQueue} from '../js/queue.js';
import {isReply} from '../js/operations.js';
import {openStore} from '../js/store.js';
import {JOURNAL_DAYS} from '../js/settings.js';
import {same, reply, html, none} from './check.js';

const DAY = 86400000;

export function judged() {
  const isEntry = ({body}) => Number.isInteger(body?.entry);
  for (const [found, state] of [
    [none, 'again'], [html(502), 'again'], [html(504), 'again'], [html(503), 'again'], [html(404), 'again'], [html(403), 'again'],
    [html(200), 'again'], [html(413), 'again'], [reply(200, {entry: 1}), 'done'], [reply(200, {}), 'again'],
    [reply(403, {name: 'identity', rule: 1}), 'session'], [reply(403, {name: 'drawer', rule: 8}), 'refused'],
    [reply(409, {name: 'slip', rule: 22}), 'refused'], [reply(503, {fault: 'F1'}), 'again'], [reply(503, {fault: 'F2'}), 'refused'],
    [reply(503, {fault: 'F3'}), 'again'], [reply(503, {fault: 'F4'}), 'again'], [reply(422, {fault: 'M6'}), 'refused'],
    [reply(404, {fault: 'M5'}), 'refused'], [reply(403, {error: 'no'}), 'again'], [reply(500, {}), 'again'],
    [reply(502, {front: 'no reply'}), 'again'], [reply(412, {front: 'other badge'}), 'again'], [reply(429, {front: 'too many'}), 'again'],
  ]) same(judge(found, isEntry), state, `judged ${JSON.stringify(found)}`);
}

export function slips() {
  const found = [nextSlip(1, 0), nextSlip(2, 998), nextSlip(2, 999), nextSlip(999998, 998), nextSlip(999999, 0), nextSlip(0, 5)];
  same(found, [1001, 2999, null, 999998999, null, null], 'slips');
  same([1, 2, 3, 4, 5, 50].map(pause), [1, 2, 4, 8, 15, 15], 'pauses');
}

/** A journal in memory that keeps what it was asked for. */
function journalInMemory() {
  const [rows, log] = [[], []];
  return {rows, log,
    write: async wanted => {
      const row = {...wanted, id: rows.length + 1, slip: 1001 + rows.length, tries: 0, state: 'waiting'};
      rows.push(row);
      log.push(`write ${row.slip}`);
      return {...row};
    },
    firstWaiting: async () => rows.filter(row => row.state === 'waiting').map(row => ({...row}))[0],
    tried: async request => { rows[request.id - 1].tries = request.tries; },
    strike: async (request, state) => {
      rows[request.id - 1].state = state;
      log.push(`strike ${request.slip} ${state}`);
    },
  };
}

/** A queue over it that gets these replies, one after another. */
function queueWith(replies) {
  const journal = journalInMemory();
  const send = async ({slip, body}) => {
    journal.log.push(`send ${slip} ${body}`);
    return replies.shift();
  };
  const wait = async seconds => { journal.log.push(`wait ${seconds}`); };
  return {journal, queue: makeQueue({journal, send, isReply, wait, report: () => {}})};
}

const posted = entry => reply(200, {balance: entry, branch: 1, entry});

export async function queues() {
  const {journal, queue} = queueWith([none, html(502), posted(1), reply(403, {name: 'limit', rule: 4}), reply(503, {fault: 'F1'}),
    reply(503, {fault: 'F4'}), posted(2)]);
  const states = await Promise.all(['a', 'b', 'c'].map(body => queue.add({name: 'post', body})));
  same(states, ['done', 'refused', 'done'], 'states');
  same(journal.log.filter(line => !line.startsWith('write')), ['send 1001 a', 'wait 1', 'send 1001 a', 'wait 2', 'send 1001 a',
    'strike 1001 done', 'send 1002 b', 'strike 1002 refused', 'send 1003 c', 'wait 1', 'send 1003 c', 'wait 2', 'send 1003 c',
    'strike 1003 done'], 'order');
}

/** A session that is over holds all up; a run after the next sign-in goes on with the very same. */
export async function queuesAcrossSessions() {
  const {journal, queue} = queueWith([reply(403, {name: 'identity', rule: 1}), posted(1), posted(2)]);
  const ends = [queue.add({name: 'post', body: 'a'})];
  await new Promise(resolve => setTimeout(resolve, 20));
  same(journal.rows.map(row => row.state), ['waiting'], 'held');
  ends.push(queue.add({name: 'post', body: 'b'}));
  same(await Promise.all(ends), ['done', 'done'], 'through');
  same(journal.log, ['write 1001', 'send 1001 a', 'write 1002', 'send 1001 a', 'strike 1001 done', 'send 1002 b', 'strike 1002 done'],
    'after the session');
}

/** How durable the transactions that write were asked to be while some work was done. */
async function durabilities(work) {
  const {transaction} = IDBDatabase.prototype;
  const asked = [];
  IDBDatabase.prototype.transaction = function made(names, mode, options) {
    if (mode === 'readwrite') asked.push(options?.durability);
    return transaction.call(this, names, mode, options);
  };
  try {
    await work();
  } finally {
    IDBDatabase.prototype.transaction = transaction;
  }
  return asked;
}

/** A slip is on the disk before its request is sent, and struck off there before the next one is. */
export async function durable() {
  indexedDB.deleteDatabase('durable');
  const store = await openStore('durable');
  const ann = store.journalOf('ann');
  let written = null;
  same(await durabilities(() => store.setFact('ann session', {number: 7, used: 0})), ['strict'], 'a session is kept');
  same(await durabilities(async () => { written = await ann.write({name: 'post', body: '1', at: 1}); }), ['strict'], 'a slip is kept');
  same(await durabilities(() => ann.strike(written, 'done', {status: 200, text: '{}'})), ['strict'], 'a slip is struck off');
  const other = await ann.write({name: 'post', body: '2', at: 2});
  same(await durabilities(() => store.setAside(other.id, {by: 'sue', reason: 'x', at: 3})), ['strict'], 'a request is set aside');
}

export async function stores() {
  indexedDB.deleteDatabase('unit');
  const store = await openStore('unit');
  await store.setFact('ann session', {number: 7, used: 0});
  const [ann, bob] = [store.journalOf('ann'), store.journalOf('bob')];
  const written = await Promise.all([1, 2, 3].map(n => ann.write({name: 'post', body: String(n), at: n})));
  same(written.map(row => row.slip), [7001, 7002, 7003], 'slips of one session, each once');
  same((await store.fact('ann session')).used, 3, 'count kept');
  same((await ann.firstWaiting()).body, '1', 'first');
  same(await bob.firstWaiting(), undefined, 'each user their own');
  let isRefused = false;
  await bob.write({name: 'post'}).catch(() => { isRefused = true; });
  same([isRefused, (await store.rows()).length], [true, 3], 'no session, no slip');
  await ann.strike(written[0], 'done', {status: 200, text: '{}'});
  same((await ann.firstWaiting()).body, '2', 'struck off');
  same(await store.setAside(written[1].id, {by: 'sue', reason: 'asked twice', at: 5}), true, 'set aside');
  same(await store.setAside(written[1].id, {by: 'sue', reason: 'again', at: 6}), false, 'set aside once');
  same((await ann.firstWaiting()).body, '3', 'the next after it');
  await store.forget(JOURNAL_DAYS * DAY + 2);
  same((await store.rows()).map(row => row.body), ['2', '3'], 'what is younger than the journal is kept');
  await store.forget((JOURNAL_DAYS + 1) * DAY);
  same((await store.rows()).map(row => row.body), ['3'], 'what waits is not forgotten');
}
