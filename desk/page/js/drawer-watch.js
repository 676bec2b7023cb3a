// Cash that a colleague at another machine moved to the drawer of whoever works here is said above all screens, until it was seen.
import {h, button} from './dom.js';
import {showAmount} from './amounts.js';
import {cashFromElsewhere} from './drawer-cash.js';
import {ring} from './bell.js';
import {say} from './words.js';

/** How often the bank is asked, in milliseconds. */
const EVERY = 15000;

/** Looks at the drawer from now on, and shows in a strip what came to it. */
export function watchDrawer(/** @type {Desk} */ desk, /** @type {HTMLElement} */ strip) {
  let seen = 0; // the difference that was seen
  let shown = 0; // what is shown

  function show(/** @type {{teller: number, cash: number, difference: number} | null} */ found) {
    if (!found) seen = 0;
    const more = found ? found.difference - seen : 0;
    if (more === shown) return;
    shown = more;
    if (!found || more === 0) return void strip.replaceChildren();
    const values = {amount: showAmount(Math.abs(more)), teller: found.teller, cash: showAmount(found.cash)};
    const see = () => {
      seen = found.difference;
      shown = 0;
      strip.replaceChildren();
    };
    strip.replaceChildren(h('div', {class: 'ask'}, h('p', {}, say(more > 0 ? 'moved.came' : 'moved.went', values)), button(say('office.seen'), see)));
    return void ring();
  }

  const look = async () => {
    if (desk.session && document.visibilityState !== 'hidden') show(await cashFromElsewhere(desk));
  };
  setInterval(look, EVERY);
  return look();
}
