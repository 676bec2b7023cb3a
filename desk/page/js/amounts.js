// Amounts are whole in the currency's smallest unit, cents say. Text becomes cents by joining digits: nothing is ever divided,
// rounded or held as a fraction.
import {CURRENCY, DENOMINATIONS} from './settings.js';
import {groupedNumber, marks, say} from './words.js';

/** What some keyboards type for a mark: spaces of any width, apostrophes of either kind. */
const ALIKE = {' ': /[\u00a0\u202f]/g, '\'': /\u2019/g};

/** Everything that the bank can write. */
const MOST = 999999999999;

/** A mark as it is typed. */
function plainMark(mark) {
  return Object.entries(ALIKE).reduce((found, [plain, others]) => found.replace(others, plain), mark);
}

/**
 * The marks by which amounts are typed: what stands between thousands, and what may stand before the cents. A point or a comma
 * that marks no thousands can't be mistaken for that, so either stands before the cents then.
 */
function typedMarks() {
  const {decimal, group} = marks();
  const thousands = plainMark(group);
  return {decimal, group: thousands, decimals: ['.', ','].filter(mark => mark === decimal || mark !== thousands)};
}

/** An expression that finds a mark, or one of several. */
const found = (/** @type {string[]} */ ...signs) => `[${signs.map(escaped).join('')}]`;
const escaped = (/** @type {string} */ sign) => `\\u${sign.charCodeAt(0).toString(16).padStart(4, '0')}`;

/** What an amount looks like: its units, and its cents where they are typed. */
function patterns({group, decimals}, digits) {
  const cents = digits === 0 ? '()' : `(?:${found(...decimals)}([0-9]{${digits}}))?`;
  return [new RegExp(`^(0|[1-9][0-9]{0,9})${cents}$`), new RegExp(`^([1-9][0-9]{0,2}(?:${found(group)}[0-9]{3})+)${cents}$`)];
}

/**
 * What a typed amount is: {cents} or {fault}, the fault in plain words for the person who typed it.
 * @returns {{cents?: number, fault?: string}}
 */
export function parseAmount(text, {least = 0, most = MOST} = {}, digits = CURRENCY.digits) {
  const typed = Object.entries(ALIKE).reduce((sofar, [plain, others]) => sofar.replace(others, plain), text).trim();
  if (typed === '') return {fault: say('amount.none', {example: example(25, digits)})};
  const terms = typedMarks();
  const piece = patterns(terms, digits).map(pattern => pattern.exec(typed)).find(one => one !== null);
  if (!piece) return {fault: faultOf(typed, terms, digits)};
  const cents = Number(piece[1].replaceAll(terms.group, '') + (piece[2] || '0'.repeat(digits)));
  if (cents < least) return {fault: say('fault.least', {least: showAmount(least, digits)})};
  if (cents > most) return {fault: say('fault.most', {most: showAmount(most, digits)})};
  return {cents};
}

/** An amount of whole units, to show how one is typed. */
const example = (units, digits) => showAmount(Number(units + '0'.repeat(digits)), digits);

/** Why a text is no amount: each key of a sentence with what it says it of. */
function faultOf(typed, {decimal, group, decimals}, digits) {
  const [mark, thousands] = [found(...decimals), found(group)];
  const fewer = `{${digits},}`;
  const wrong = [
    ['amount.sign', '^[-+]'],
    ['amount.characters', `[^0-9${found(group, ...decimals).slice(1, -1)}]`],
    ...digits === 0 ? [['amount.whole', mark]] : [['amount.mark', `^[0-9]+${thousands}([0-9]|[0-9]{${digits}})$`]],
    ['amount.twice', `${mark}.*${mark}`],
    ['amount.digits', `${mark}[0-9]${fewer}[0-9]$`],
    ['amount.both', `${mark}[0-9]{0,${Math.max(0, digits - 1)}}$`],
    ['amount.zero', `^${mark}`],
    ['amount.groups', thousands],
    ['amount.leading', '^0[0-9]'],
  ].find(([, pattern]) => new RegExp(pattern).test(typed));
  const values = {mark: decimal, count: digits, example: example(25, digits), large: example(1250, digits)};
  return say(wrong ? wrong[0] : 'amount.large', values);
}

/** Cents as people read them: 1,250.00 or -0.05. */
export function showAmount(cents, digits = CURRENCY.digits) {
  const text = String(Math.abs(cents)).padStart(digits + 1, '0');
  const [units, rest] = [text.slice(0, text.length - digits), text.slice(text.length - digits)];
  return `${cents < 0 ? '-' : ''}${groupedNumber(units)}${digits === 0 ? '' : marks().decimal + rest}`;
}

/** Cents with a sign where they are not nothing: +25.00. */
export function showChange(cents) {
  return (cents > 0 ? '+' : '') + showAmount(cents);
}

/**
 * What a typed number is: {number} or {fault}.
 * @returns {{number?: number, fault?: string}}
 */
export function parseNumber(text, {least = 1, most = 999999999} = {}) {
  const typed = text.trim();
  if (typed === '') return {fault: say('number.none')};
  if (!/^[0-9]{1,12}$/.test(typed)) return {fault: say('number.digits')};
  const number = Number(typed);
  if (number < least) return {fault: say('fault.least', {least})};
  if (number > most) return {fault: say('fault.most', {most})};
  return {number};
}

/** The cents of an amount as a report writes it, such as `-0.05`. */
export function reportedAmount(text) {
  const piece = /^ *(-?)([0-9]+)\.([0-9]{2})$/.exec(text);
  if (!piece) throw new Error(`no amount: ${text}`);
  // (the sum makes 0 of -0)
  return Number(piece[1] + piece[2] + piece[3]) + 0;
}

/**
 * The sum of a count of each note and coin: {cents}, or {fault, at} with the first that is no number.
 * @returns {{cents?: number, fault?: string, at?: number}}
 */
export function countCash(texts, denominations = DENOMINATIONS) {
  let cents = 0;
  for (const [at, text] of texts.entries()) {
    if (text.trim() === '') continue;
    const {number, fault} = parseNumber(text, {least: 0, most: 999999});
    if (fault) return {fault, at};
    cents += number * denominations[at];
  }
  return {cents};
}
