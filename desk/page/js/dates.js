// Times as people read them, by the language of the page; and the clock, which is the front's.
import {locale, say} from './words.js';
import {CLOCK_SECONDS} from './settings.js';

const two = number => String(number).padStart(2, '0');
const format = options => at => new Intl.DateTimeFormat(locale(), options).format(at);

/** A time in milliseconds as 09:05:07. */
export const showClock = format({hour: '2-digit', minute: '2-digit', second: '2-digit', hourCycle: 'h23'});

/** Its day. */
export const showDay = format({dateStyle: 'medium'});

/** Day and clock. */
export const showTime = at => say('time', {day: showDay(at), clock: showClock(at)});

/** The day of a time for files and comparisons: 2026-11-28. */
export function plainDay(at) {
  const time = new Date(at);
  return `${time.getFullYear()}-${two(time.getMonth() + 1)}-${two(time.getDate())}`;
}

/** Day and clock for files: 2026-11-28 09:05:07. */
export function plainTime(at) {
  const time = new Date(at);
  return `${plainDay(at)} ${two(time.getHours())}:${two(time.getMinutes())}:${two(time.getSeconds())}`;
}

/** The clock alone of a time of today, else day and clock. */
export function showWhen(at) {
  return plainDay(at) === plainDay(now()) ? showClock(at) : showTime(at);
}

let ahead = 0; // by how many milliseconds the front's clock is ahead of this machine's

/** Takes the front's clock from the field Date of a reply, or nothing of what is none. Returns that time. */
export function setClock(/** @type {string | null} */ date, here = Date.now()) {
  const there = Date.parse(date ?? '');
  if (Number.isNaN(there)) return null;
  // (the field has whole seconds, so clocks that agree differ by less than two)
  ahead = Math.abs(there - here) < 2000 ? 0 : there - here;
  return here + ahead;
}

/** The time by the front's clock, in milliseconds. */
export const now = () => Date.now() + ahead;

/** By how many seconds this machine's clock is slow, or null where it differs by no more than may be. */
export function clockBehind() {
  return Math.abs(ahead) > CLOCK_SECONDS * 1000 ? Math.trunc(ahead / 1000) : null;
}

const SAMPLE = new Date(2026, 10, 28, 12);
const CLOCK = '( [0-9]{2}:[0-9]{2}(?::[0-9]{2})?)?';
const daysOf = () => new Intl.DateTimeFormat(locale(), {year: 'numeric', month: '2-digit', day: '2-digit'});

/** How a day is typed in the language of the page. */
export const exampleDay = () => daysOf().format(SAMPLE);

/** A typed day, or day and time, as 2026-11-28 17:30, or null: it may be typed so, or as the language of the page has it. */
function plainMoment(/** @type {string} */ text) {
  const digits = {year: '(?<year>[0-9]{4})', month: '(?<month>[0-9]{1,2})', day: '(?<day>[0-9]{1,2})'};
  const own = daysOf().formatToParts(SAMPLE).map(({type, value}) => digits[type] ?? value.replace(/[^ ]/g, '\\$&').replace(/ /g, ' ?')).join('');
  const patterns = [`(?<year>[0-9]{4})-(?<month>[0-9]{2})-(?<day>[0-9]{2})`, own].map(day => new RegExp(`^${day}${CLOCK}$`));
  const found = patterns.map(pattern => pattern.exec(text.trim())).find(one => one !== null);
  if (!found) return null;
  const {year, month, day} = found.groups;
  return `${year}-${month.padStart(2, '0')}-${day.padStart(2, '0')}${found[4] ?? ''}`;
}

/** Whether a text looks like a day, or a day and a time. */
export const isMoment = (/** @type {string} */ text) => plainMoment(text) !== null;

/**
 * The moment, in seconds, of a typed day or day and time, or null; a day alone is its first second, or its last. (A browser
 * takes the 31st of February for the 3rd of March.)
 */
export function parseMoment(text, isLast) {
  const [day, time] = (plainMoment(text) ?? '').split(' ');
  const at = new Date(`${day}T${time ?? (isLast ? '23:59:59' : '00:00:00')}`).getTime();
  return Number.isNaN(at) || plainDay(at) !== day ? null : Math.trunc(at / 1000);
}
