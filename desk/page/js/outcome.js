// The panel that says what came of a request.
import {h} from './dom.js';
import {now, showClock} from './dates.js';
import {OPERATIONS} from './operations.js';
import {askedText, notedText} from './journal.js';
import {delayText, refusalText} from './refusals.js';
import {say} from './words.js';

const panel = document.getElementById('outcome');
const signInLink = () => h('a', {href: '#session'}, say('signIn'));

/** What is shown where a request was not sent, or its reply not read. */
const NOTES = ['held', 'nosession', 'unkept', 'unreadable', 'teller'];

export const clear = () => panel.replaceChildren();

/** Clears a refusal of which nothing is left to be done. */
export const clearRefused = () => { if (panel.querySelector('.refused:not(.begun)')) clear(); };

/** Shows something of a kind: `done`, `refused` or `noted`. */
export function put(/** @type {string} */ kind, /** @type {string} */ title, ...more) {
  panel.replaceChildren(h('div', {class: `outcome ${kind}`, role: kind.startsWith('refused') ? 'alert' : null}, h('h2', {}, title), more));
}

/** Something more about what is shown. */
export const add = (...more) => panel.firstElementChild?.append(...more.filter(Boolean));

export function note(title, text, ...more) {
  put('noted', title, h('p', {}, text), more);
}

/** A result that is no operation's: `figure` and `more` may be left out. */
export function answered(title, label, figure = '', more = '') {
  put('done', title, h('p', {class: 'label'}, label),
    figure ? h('p', {class: 'figure', 'data-name': 'figure'}, figure) : null, more ? h('p', {}, more) : null);
}

/** An operation that is done; how often it was sent makes no difference to the bank. */
function done(request, reply) {
  const {label, figure, more} = OPERATIONS[request.name].end(JSON.parse(request.body), reply.body);
  const differs = request.name === 'drawer-off' && reply.body.difference !== 0;
  const noted = notedText(request);
  put(differs ? 'noted' : 'done', request.tries > 1 ? say('done.again', {count: request.tries}) : say('done'),
    h('p', {class: 'asked'}, askedText(request)),
    h('p', {class: 'label'}, label), h('p', {class: 'figure', 'data-name': 'figure'}, figure),
    h('p', {}, more), noted ? h('p', {}, noted) : null,
    h('p', {class: 'small'}, say('done.number', {clock: showClock(request.answered ?? now()), number: request.slip})));
}

/** A request without a number that got no reply which decides anything, and what to do. */
export function unanswered(/** @type {BankReply} */ reply, /** @type {string} */ advice) {
  note(say('noReply'), delayText(reply), h('p', {}, advice));
}

/** A refusal. Of what bears a number and waits for a session nobody can say yet that it is not done. */
function refused(request, reply) {
  const {title, advice, rule} = refusalText(reply.body, request.name);
  const canSignIn = reply.body.rule === 1 && request.kind !== 'session';
  const isOver = request.state === 'refused'; // what bore a number, and was judged
  put('refused', say(request.state === 'waiting' ? 'notYet' : 'notDone'), h('p', {class: 'asked'}, askedText(request)),
    h('p', {class: 'reason'}, title), h('p', {}, advice), isOver ? h('p', {}, say('refused.nothing')) : null,
    canSignIn ? h('p', {}, signInLink()) : null, h('p', {class: 'small'}, rule));
}

/** What the desk reports, where it is to be shown here. */
export function show(/** @type {string} */ event, request, /** @type {BankReply} */ reply) {
  if (event === 'clear') clear();
  else if (event === 'done' && request.kind === 'command') answered(say('done'), request.text);
  else if (event === 'done') done(request, reply);
  else if (event === 'refused' || event === 'session') refused(request, reply);
  else if (event === 'noreply') unanswered(reply, say('ask.again'));
  else if (event === 'unsure') unanswered(reply, say('look.listing'));
  else if (NOTES.includes(event)) {
    note(say(`note.${event}.title`), say(`note.${event}.text`), event === 'nosession' ? h('p', {}, signInLink()) : null);
  }
}
