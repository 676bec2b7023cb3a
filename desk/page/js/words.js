// The page's texts in the language of whoever works here. A sentence is whole, with places for values: nothing is put together
// of pieces. Numbers, dates and plurals are the browser's own, by Intl.
import {LANGUAGE} from './settings.js';
import de from './words/de.js';
import en from './words/en.js';
import es from './words/es.js';
import fr from './words/fr.js';

/** @typedef {string | {one: string, many?: string, other: string}} Sentence One with a {count} has a form for each plural. */
/** @typedef {Record<string, unknown>} Values */

/** @type {Record<string, Record<string, Sentence>>} */
export const WORDS = {en, de, es, fr};

/** The first wanted locale whose language the page has. */
function localeOf(/** @type {readonly string[]} */ wanted) {
  return wanted.find(one => one.split('-')[0] in WORDS) ?? 'en';
}

/** What hangs on the locale: its texts, and its marks. (Always grouped, as Spanish leaves that out of 1.250.) */
function termsOf(/** @type {string} */ locale) {
  const numbers = new Intl.NumberFormat(locale, {useGrouping: /** @type {any} */ ('always'), maximumFractionDigits: 1});
  const parts = numbers.formatToParts(1234567.8);
  const mark = (/** @type {string} */ type) => parts.find(part => part.type === type)?.value ?? '';
  const words = WORDS[locale.split('-')[0]];
  return {locale, words, plurals: new Intl.PluralRules(locale), numbers, group: mark('group'), decimal: mark('decimal')};
}

const preferred = LANGUAGE === 'browser' ? globalThis.navigator?.languages ?? [] : [LANGUAGE];
let terms = termsOf(localeOf(preferred));

export const locale = () => terms.locale;
export const language = () => terms.locale.split('-')[0];

/** What stands before the decimals, and between thousands. */
export const marks = () => ({decimal: terms.decimal, group: terms.group});

/** A whole number with its thousands marked, from its digits. */
export const groupedNumber = (/** @type {string} */ digits) => terms.numbers.format(BigInt(digits));

/** Sets another locale. */
export function setLocale(/** @type {string} */ name) {
  terms = termsOf(localeOf([name]));
}

/** The text of a key with these values in its places. A key that is nowhere is shown itself, so that what was done is still said. */
export function say(/** @type {string} */ key, /** @type {Values} */ values = {}) {
  const found = terms.words[key] ?? key;
  const plural = /** @type {'one'} */ (terms.plurals.select(Number(values.count)));
  const sentence = typeof found === 'string' ? found : found[plural] ?? found.other;
  return sentence.replace(/\{([a-zA-Z]+)\}/g, (place, name) => (name in values ? placed(values[name]) : place));
}

/** A value in its place. What is not typed yet is left open. */
const placed = (/** @type {unknown} */ value) => (value === null || value === undefined ? '…' : String(value));
