// What is said above all screens: a certificate that ends soon, and a clock that is wrong.
import {h} from './dom.js';
import {clockBehind, now, showDay, showTime} from './dates.js';
import {CERTIFICATE_DAYS} from './settings.js';
import {say} from './words.js';

const DAY = 86400000;

/** In how many days a certificate ends, or null where that is far off or not known; `ends` is as the front writes it. */
export function daysLeft(/** @type {string | undefined} */ ends, at = now()) {
  const end = Date.parse(ends ?? '');
  const days = Math.max(0, Math.floor((end - at) / DAY));
  return Number.isNaN(end) || days > Math.max(...CERTIFICATE_DAYS) ? null : days;
}

function certificateNotice(ends) {
  const days = daysLeft(ends);
  if (days === null) return null;
  const isUrgent = days <= Math.min(...CERTIFICATE_DAYS);
  const text = say(isUrgent ? 'certificate.urgent' : 'certificate.soon', {count: days, day: showDay(Date.parse(ends))});
  return h('p', {class: isUrgent ? 'notice urgent' : 'notice', 'data-name': 'certificate'}, text);
}

function clockNotice() {
  const seconds = clockBehind();
  if (seconds === null) return null;
  const values = {here: showTime(Date.now()), there: showTime(now())};
  return h('p', {class: 'notice', 'data-name': 'clock'}, say(seconds > 0 ? 'clock.behind' : 'clock.ahead', values));
}

let shown = '';

/** Shows what is to be said, where it is another than before; a clock is said anew once per minute at most. */
export function showNotices(/** @type {string | undefined} */ ends) {
  const notices = [certificateNotice(ends), clockNotice()].filter(one => one !== null);
  const minute = Math.trunc(now() / 60000);
  const text = notices.map(one => `${one.className} ${one.dataset.name === 'clock' ? minute : one.textContent}`).join('\n');
  if (text !== shown) document.getElementById('notices').replaceChildren(...notices);
  shown = text;
}
