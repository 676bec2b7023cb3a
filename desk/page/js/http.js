// One request to the bank, and what its reply means. Only a reply in the bank's own form decides anything, and none that a
// front makes of its own.

import {setClock} from './dates.js';

/** Longer than the front holds a request while the bank restarts. */
const SECONDS = 45;

/**
 * {kind: 'none', isLate} or {kind: 'reply', status, type, text, body, at}; the body is an object or null, `at` the front's time.
 * Never throws.
 * @returns {Promise<BankReply>}
 */
export async function send(/** @type {BankRequest} */ {path, badge, session, slip, release, body, method = 'POST'}, seconds = SECONDS) {
  /** @type {Record<string, string>} */
  const headers = {};
  // The front refuses it (412) where somebody else's card is in by now.
  if (badge) headers['Desk-Badge'] = badge;
  if (session) headers['Bank-Session'] = String(session);
  if (slip) headers['Bank-Slip'] = String(slip);
  if (release) headers['Bank-Release'] = String(release);
  const stop = new AbortController();
  const timer = setTimeout(() => stop.abort(), seconds * 1000);
  /** @type {RequestInit} */
  const options = {method, headers, signal: stop.signal, cache: 'no-store', redirect: 'error', credentials: 'same-origin'};
  try {
    const reply = await fetch(path, method === 'GET' ? options : {...options, body: body ?? ''});
    const text = await reply.text();
    const type = reply.headers.get('Content-Type') ?? '';
    const at = setClock(reply.headers.get('Date'));
    return {kind: 'reply', status: reply.status, text, type, at, body: type.startsWith('application/json') ? asObject(text) : null};
  } catch {
    return {kind: 'none', isLate: stop.signal.aborted};
  } finally {
    clearTimeout(timer);
  }
}

function asObject(text) {
  try {
    const value = JSON.parse(text);
    return value !== null && typeof value === 'object' && !Array.isArray(value) ? value : null;
  } catch {
    return null;
  }
}

/**
 * What a reply means: 'done', 'refused', 'session' (a session has to be opened first), or 'again': it may be done or not, so
 * the very same is sent again. `isReply` says whether a 200 is a reply to what was asked.
 */
export function judge(/** @type {BankReply} */ reply, isReply) {
  if (reply.kind === 'none') return 'again';
  const {status, body} = reply;
  if (status === 200) return isReply(reply) ? 'done' : 'again';
  if (body === null) return 'again';
  if (Number.isInteger(body.rule) && typeof body.name === 'string' && (status === 403 || status === 409)) {
    return body.rule === 1 ? 'session' : 'refused';
  }
  // Of the faults F1 to F4 only F2 is for good: a size is reached.
  if (status === 503) return body.fault === 'F2' ? 'refused' : 'again';
  return /^M[1-6]$/.test(body.fault) && status >= 400 && status <= 501 ? 'refused' : 'again';
}
