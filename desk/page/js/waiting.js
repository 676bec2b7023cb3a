// The strip that says what waits for a reply: the user's own requests, and those of others on this machine.
import {h, button} from './dom.js';
import {showWhen} from './dates.js';
import {askedText} from './journal.js';
import {delayText} from './refusals.js';
import {say} from './words.js';

const strip = document.getElementById('waiting');

/** Why the user's own waits: `last` is what was reported of it last, {reply} or {isSession}, or null. */
function reason(last) {
  if (last?.isSession) return say('waits.session');
  if (last) return say('waits.delayed', {why: delayText(last.reply)});
  return say('waits.sending');
}

function line(/** @type {JournalRow} */ row) {
  return h('li', {}, say('waits.line', {asked: askedText(row), time: showWhen(row.at), count: row.tries}));
}

function ownRequests(rows, last, {hurry, signIn}) {
  return h('div', {class: 'waits'},
    h('p', {}, h('strong', {}, say('waits.count', {count: rows.length}))), h('p', {}, reason(last)),
    h('ul', {}, rows.map(line)),
    last?.isSession ? button(say('signIn.again'), signIn) : button(say('waits.hurry'), hurry));
}

function requestOfAnother(row, setAside) {
  return h('div', {class: 'waits'},
    h('p', {}, h('strong', {}, say('waits.other', row))), h('p', {}, say('waits.otherWhen', row)),
    h('ul', {}, line(row)),
    button(say('aside'), () => setAside(row), {'aria-label': say('aside.of', {asked: askedText(row), badge: row.badge})}));
}

const nameOf = element => element.ariaLabel ?? element.textContent;

/** Shows the rows that wait, and leaves the focus where it was; `actions` has hurry(), signIn() and setAside(row). */
export function show(/** @type {JournalRow[]} */ rows, /** @type {string} */ badge, last, actions) {
  const held = strip.contains(document.activeElement) ? nameOf(document.activeElement) : null;
  const own = rows.filter(row => row.badge === badge);
  const others = rows.filter(row => row.badge !== badge);
  strip.replaceChildren(
    ...(own.length === 0 ? [] : [ownRequests(own, last, actions)]),
    ...others.map(row => requestOfAnother(row, actions.setAside)));
  if (held === null) return;
  const again = [...strip.querySelectorAll('button')].find(one => nameOf(one) === held);
  (again ?? document.getElementById('work')).focus();
}
