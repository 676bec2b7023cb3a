// After minutes of rest the page is covered, until Enter is pressed and the same certificate is still there.
import {h, button} from './dom.js';
import {LOCK_MINUTES} from './settings.js';
import {say} from './words.js';

/** What is a sign of somebody at work. */
const SIGNS = ['keydown', 'pointerdown', 'input'];

/**
 * Locks after `milliseconds` of rest. `isSame` asks whether the card that is in is still that of whoever works here; where another
 * is, `leave` is called.
 */
export function lockAfter({isSame, leave, milliseconds = LOCK_MINUTES * 60000}) {
  let timer = 0;
  let isAsking = false;

  function rest() {
    clearTimeout(timer);
    timer = Number(setTimeout(lock, milliseconds));
  }

  function lock() {
    const before = /** @type {HTMLElement | null} */ (document.activeElement);
    const text = h('p', {role: 'status'}, say('lock.text'));
    const lift = async () => {
      if (isAsking) return;
      isAsking = true;
      const same = await isSame();
      isAsking = false;
      if (same === false) leave();
      else if (same === null) text.textContent = say('lock.noReply');
      else open(before);
    };
    const cover = h('dialog',
      {class: 'cover', 'aria-labelledby': 'locked', cancel: event => event.preventDefault()},
      h('h2', {id: 'locked'}, say('lock.title')), text, button(say('lock.button'), lift));
    function open(element) {
      cover.close();
      cover.remove();
      document.body.classList.remove('locked');
      element?.focus?.();
      rest();
    }
    document.body.classList.add('locked');
    document.body.append(cover);
    cover.showModal();
  }

  const isLocked = () => document.body.classList.contains('locked');
  for (const sign of SIGNS) addEventListener(sign, () => { if (!isLocked()) rest(); }, {capture: true, passive: true});
  rest();
}
