// The shell: one window at a time, the keys, and which screen is shown.
import {h, button} from './dom.js';
import {send} from './http.js';
import {openStore} from './store.js';
import {firstOffered} from './allowed.js';
import {makeDesk} from './desk.js';
import {hasReceipt} from './receipt.js';
import {printReceipt} from './paper.js';
import {reasonFor} from './dialog.js';
import {askedText} from './journal.js';
import {forgetDraft, keepDraft, restoreDraft} from './drafts.js';
import {now} from './dates.js';
import {lockAfter} from './lock.js';
import {showNotices} from './notices.js';
import {makeOffice} from './office.js';
import {watchNames} from './account-names.js';
import {makeAsking} from './asking.js';
import {watchDrawer} from './drawer-watch.js';
import {bookedRow, lastSum, sumOf} from './sums.js';
import {makeSumPanel} from './sum-panel.js';
import {makePurposes} from './purposes.js';
import {placeDoubt} from './place.js';
import {accountSettled, resumeCustomers} from './new-customers.js';
import {language, say} from './words.js';
import * as menu from './menu.js';
import * as outcome from './outcome.js';
import * as waiting from './waiting.js';
import {SCREENS} from './screens/all.js';

/** What is quick is not worth a line: after how many milliseconds the strip comes. */
const QUICK = 500;

const [work, place, lastReceipt, asks] = ['work', 'place', 'last', 'asks'].map(id => document.getElementById(id));
/** @type {Desk} */
let desk;
let asking;
let showSum; // what has become of a sum, by its number
let purposes;
/** @type {DeskScreen | null} */
let shown = null;
let ends; // when the certificate ends, as the front writes it
let last = null; // {reply} that decided nothing about the request that waits
/** @type {JournalRow | null} */
let receipt = null; // the row whose receipt can be printed
let quick = 0;
let turns = 0; // how often a screen was asked for
let isFilledIn = false; // by the address of the screen that is shown

function showHeader() {
  const {branch, teller} = desk.place;
  const none = say('header.none');
  const facts = {you: desk.badge, session: desk.session ?? none, branch: branch ?? none, drawer: teller ?? none};
  place.replaceChildren(...Object.entries(facts).map(([name, value]) => h('div', {},
    h('dt', {}, say(`header.${name}`)), h('dd', {}, String(value)))));
  showNotices(ends);
}

async function showWaiting() {
  const rows = await desk.waiting();
  waiting.show(rows, desk.badge, desk.session ? last : {isSession: true}, {hurry: () => desk.hurry(), signIn, setAside});
}

/** Opens a session, or says why there is none; whether there is one. */
async function signIn() {
  const {isOpened, reply} = await desk.open();
  if (!isOpened && reply.body?.rule) outcome.show('refused', {text: say('signIn'), kind: 'session'}, reply);
  else if (!isOpened) outcome.unanswered(reply, say('tryAgain'));
  showHeader();
  return isOpened;
}

/** Another user's request is set aside by a supervisor, who gives a reason. */
async function setAside(row) {
  if (!await desk.supervises(row)) return;
  const reason = await reasonFor(say('aside.question', row), say('aside.text', {asked: askedText(row)}), say('aside'));
  if (reason === '') return;
  const isSetAside = await desk.setAside(row, reason);
  outcome.note(say(isSetAside ? 'aside.done' : 'aside.late'), askedText(row));
  await showWaiting();
}

/** The last receipt can be printed on every screen, until there is another. Of a sum it has all that is booked. */
async function offerReceipt(/** @type {JournalRow} */ made) {
  const sum = made.noted?.sum ? sumOf(await desk.rows(true), made.noted.sum) : null;
  const row = sum ? bookedRow(sum) : made;
  receipt = row;
  lastReceipt.replaceChildren(h('span', {}, askedText(row)),
    button([say('receipt.print'), ...['Esc', 'K'].map(key => h('kbd', {'aria-hidden': 'true'}, key))], () => printReceipt(desk, row)),
    ...sum && !sum.isWhole ? [button(say('parts.open'), () => showSum(sum.id))] : []);
}

/** What the desk reports. */
async function report(event, request, reply) {
  if (event === 'learned') {
    menu.showMenu(SCREENS, desk);
    return;
  }
  if (event === 'sum') {
    await showSum(request);
    return;
  }
  clearTimeout(quick);
  if (event === 'sending') {
    quick = Number(setTimeout(showWaiting, QUICK));
    return;
  }
  const isJudged = event === 'done' || event === 'refused';
  const doubt = event === 'refused' ? await placeDoubt(desk, request, reply) : null;
  if (isJudged && request.noted?.sum) await showSum(request.noted.sum);
  else if (event !== 'again') outcome.show(event, request, reply);
  if (event === 'done' && hasReceipt(request)) await offerReceipt(request);
  outcome.add(doubt);
  if (event === 'refused' && !request.noted?.sum) outcome.add(asking.offer(request, reply));
  if (event === 'done') asking.noticed(request, reply);
  if (event === 'done' && request.noted?.purpose) purposes.send();
  if (isJudged) await accountSettled(desk, request, event);
  const bearsSlip = request && !request.kind;
  if (bearsSlip) last = event === 'again' ? {reply} : null;
  if (bearsSlip || event === 'session') await showWaiting();
  showHeader();
}

/** Draws what a screen is made of. What was typed there before is there again, unless its address fills it in. */
function draw(screen, made, given) {
  const isOther = screen !== shown;
  if (isOther) outcome.clear();
  if (shown && isOther) keepDraft(shown.id, work, isFilledIn);
  isFilledIn = given.toString() !== '';
  shown = screen;
  document.title = say('page.title', {screen: say(`screen.${screen.id}`)});
  document.body.classList.toggle('wide', screen.isWide === true);
  menu.mark(screen.id);
  const title = say(screen.hasTitle ? `title.${screen.id}` : `screen.${screen.id}`);
  work.replaceChildren(h('h1', {}, title), ...[made.elements].flat().filter(Boolean));
  if (isOther && !isFilledIn) restoreDraft(screen.id, work);
  showHeader();
  if (isOther) scrollTo(0, 0);
}

/** Shows the screen of the address. Shown again after a request, it leaves the focus to whoever has gone to the menu by then. */
async function showScreen(isAgain = false) {
  const [id, query] = location.hash.slice(1).split('?');
  const screen = SCREENS.find(one => one.id === id) ?? firstOffered(SCREENS, desk);
  turns += 1;
  const turn = turns;
  const given = new URLSearchParams(query ?? '');
  const again = () => (turn === turns ? showScreen(true) : null); // where no other was asked for meanwhile
  const first = () => firstOffered(SCREENS, desk).id;
  const made = await screen.make(desk, {given, changed: showHeader, again, signIn, first});
  if (turn !== turns) return; // another was asked for meanwhile
  draw(screen, made, given);
  if (isAgain && document.getElementById('menu').contains(document.activeElement)) return;
  if (made.focus) made.focus();
  else work.focus({preventScroll: true});
}

/** What was typed for an operation waits for a colleague now, so its screen is emptied for the next customer. */
async function emptied(/** @type {string} */ name) {
  const id = {'drawer-on': 'drawer', 'move-cash': 'cash'}[name] ?? name;
  forgetDraft(id);
  if (shown?.id !== id) return;
  history.replaceState(null, '', `#${id}`);
  await showScreen(true);
}

/** Once another account is typed, what was refused before is another customer's. */
function nextCustomer(/** @type {any} */ {target}) {
  if (target.closest('[data-name="account"], [data-name="source"]')) outcome.clearRefused();
}

/** Escape leads to the menu; there a letter leads to a screen, and arrows lead up and down. */
function pressed(event) {
  if (event.ctrlKey || event.altKey || event.metaKey || document.querySelector('dialog[open]')) return;
  if (event.key === 'Escape') {
    menu.enter();
    event.preventDefault();
    return;
  }
  const links = menu.links();
  const at = links.indexOf(/** @type {any} */ (document.activeElement));
  if (at < 0) return;
  const next = {ArrowDown: links[at + 1], ArrowUp: links[at - 1]}[event.key];
  const screen = SCREENS.find(one => one.key === event.key.toLowerCase());
  const printsReceipt = receipt && event.key.toLowerCase() === 'k';
  if (!next && !screen && !printsReceipt) return;
  event.preventDefault();
  if (next) next.focus();
  else if (printsReceipt) printReceipt(desk, receipt);
  else if (location.hash === `#${screen.id}`) showScreen();
  else location.hash = screen.id;
}

/** Whose card is in: {badge}, which is null where nobody is known, and the front's reply. */
async function whoIsHere() {
  const reply = await send({path: '/who', method: 'GET'});
  const badge = typeof reply.body?.badge === 'string' ? reply.body.badge : null;
  return {badge, reply};
}

/** Whose card is in, or null, which is said. */
async function badgeHere() {
  const {badge, reply} = await whoIsHere();
  if (badge !== null) {
    ({ends} = reply.body);
    return badge;
  }
  const isDown = reply.kind === 'none' || reply.status >= 500;
  outcome.note(say(isDown ? 'front.down.title' : 'front.unknown.title'), say(isDown ? 'front.down.text' : 'front.unknown.text'));
  return null;
}

/** Whether the card is still that of whoever works here, or null where nothing answers. */
async function isSameCard() {
  const {badge, reply} = await whoIsHere();
  if (badge === null && (reply.kind === 'none' || reply.status >= 500)) return null;
  if (badge === desk.badge) ({ends} = reply.body);
  showNotices(ends);
  return badge === desk.badge;
}

/** The texts of the page itself. */
function fillPage() {
  document.documentElement.lang = language();
  document.title = say('page.name');
  for (const element of /** @type {NodeListOf<HTMLElement>} */ (document.querySelectorAll('[data-say]'))) {
    element.textContent = say(element.dataset.say);
  }
  for (const element of /** @type {NodeListOf<HTMLElement>} */ (document.querySelectorAll('[data-label]'))) {
    element.setAttribute('aria-label', say(element.dataset.label));
  }
}

async function begin() {
  const badge = await badgeHere();
  if (badge === null) return;
  const store = await openStore().catch(() => null);
  if (!store) {
    outcome.note(say('browser.title'), say('browser.text'));
    return;
  }
  navigator.storage.persist?.().catch(() => {}); // a browser short of room is not to take away what waits
  await store.forget(now());
  desk = await makeDesk({store, badge, report});
  desk.office = makeOffice(badge);
  asking = makeAsking({desk, office: desk.office, strip: asks, note: outcome.note, asked: emptied});
  desk.askFor = asking.askFor;
  showSum = makeSumPanel({desk, asking});
  purposes = makePurposes(desk, store, ({body}) => outcome.add(h('p', {}, say('purpose.refused', {why: body?.office ?? ''}))));
  watchNames(work, desk);
  work.addEventListener('input', nextCustomer);
  menu.showMenu(SCREENS, desk);
  addEventListener('hashchange', () => showScreen());
  addEventListener('keydown', pressed);
  addEventListener('online', () => desk.hurry());
  document.getElementById('skip').addEventListener('click', event => {
    event.preventDefault();
    work.focus();
  });
  if (!desk.session) history.replaceState(null, '', '#session');
  await showScreen();
  await showWaiting();
  const begun = lastSum(await desk.rows(true));
  if (begun && begun.done.length > 0 && !begun.isWhole) {
    await showSum(begun.id);
    await offerReceipt(begun.done.at(-1));
  }
  await resumeCustomers(desk);
  asking.start();
  purposes.send();
  watchDrawer(desk, document.getElementById('moved'));
  lockAfter({isSame: isSameCard, leave: () => location.reload()});
  if (desk.session) desk.run();
}

/** Holds the lock as long as the window is there. */
const workAlone = () => begin().then(() => new Promise(() => {}));

// What nothing else says: the browser's store fails, say.
addEventListener('unhandledrejection', () => outcome.note(say('failed.title'), say('failed.text')));

fillPage();
// Two windows would take the same numbers: the second waits until the first is closed.
navigator.locks.request('desk', {ifAvailable: true}, lock => {
  if (lock) return workAlone();
  outcome.note(say('elsewhere.title'), say('elsewhere.text'));
  navigator.locks.request('desk', () => {
    outcome.clear();
    return workAlone();
  });
  return undefined;
});
