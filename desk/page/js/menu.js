// The menu of screens. Those that this user may not use are stepped back, and still there.
import {isOffered} from './allowed.js';
import {h} from './dom.js';
import {say} from './words.js';

const menu = document.getElementById('menu');

function itemOf(/** @type {DeskScreen} */ {id, key}) {
  return h('li', {}, h('a', {href: `#${id}`, 'aria-keyshortcuts': key.toUpperCase()},
    h('kbd', {'aria-hidden': 'true'}, key.toUpperCase()), h('span', {}, say(`screen.${id}`))));
}

/** Draws the menu, and leaves the focus where it was. */
export function showMenu(/** @type {DeskScreen[]} */ screens, /** @type {Desk} */ desk) {
  const held = menu.contains(document.activeElement) ? document.activeElement.getAttribute('href') : null;
  const current = menu.querySelector('[aria-current]')?.getAttribute('href');
  const offered = screens.filter(screen => isOffered(screen, desk));
  const back = screens.filter(screen => !offered.includes(screen));
  const more = back.length === 0 ? null
    : h('details', {class: 'back'}, h('summary', {}, say('menu.back')), h('ul', {}, back.map(itemOf)));
  menu.replaceChildren(h('ul', {}, offered.map(itemOf)), ...more ? [more] : []);
  if (current) mark(current.slice(1));
  if (held) link(held)?.focus();
}

const link = href => /** @type {HTMLElement | undefined} */ ([...menu.querySelectorAll('a')].find(one => one.hash === href));

/** Marks the screen that is shown. */
export function mark(/** @type {string} */ id) {
  for (const one of menu.querySelectorAll('a')) {
    if (one.hash === `#${id}`) one.setAttribute('aria-current', 'page');
    else one.removeAttribute('aria-current');
  }
  const details = menu.querySelector('details');
  if (details) details.open = Boolean(link(`#${id}`)?.closest('details'));
}

/** The links that can be seen. */
export const links = () => [...menu.querySelectorAll('a')].filter(one => !one.closest('details:not([open])'));

/** Gives the focus to the screen that is shown, or to the first. */
export function enter() {
  const current = /** @type {HTMLElement | null} */ (menu.querySelector('[aria-current]'));
  (links().includes(/** @type {any} */ (current)) ? current : links()[0])?.focus();
}
