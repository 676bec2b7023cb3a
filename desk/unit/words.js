// The texts in each language, and amounts, numbers and dates as it writes them.
import {WORDS, say, setLocale, locale} from '../js/words.js';
import {parseAmount, showAmount} from '../js/amounts.js';
import {parseMembers} from '../js/policy-commands.js';
import {daysLeft} from '../js/notices.js';
import {canBeAsked, canCorrect, knownEntries} from '../js/known-entries.js';
import {setClock, now, clockBehind, exampleDay, isMoment, parseMoment} from '../js/dates.js';
import {same, row} from './check.js';

/** The forms of a sentence. */
const formsOf = sentence => (typeof sentence === 'string' ? [sentence] : Object.values(sentence));
/** The places of a sentence; a plural may say one without it. */
const placesOf = sentence => [...new Set(formsOf(sentence).flatMap(form => form.match(/\{[a-zA-Z]+\}/g) ?? []))].sort();

/** No language lacks a key, or a place of a sentence, nor has one too many. */
export function words() {
  const keys = Object.keys(WORDS.en).sort();
  for (const [name, language] of Object.entries(WORDS)) {
    const found = Object.keys(language);
    same([keys.filter(key => !found.includes(key)), found.filter(key => !keys.includes(key))], [[], []], `keys of ${name}`);
    for (const key of keys) {
      same(placesOf(language[key] ?? ''), placesOf(WORDS.en[key]), `places of ${key} in ${name}`);
      if (formsOf(language[key] ?? '').some(form => form.trim() === '')) same(language[key], 'a text', `${key} in ${name}`);
      same(typeof language[key] === 'object', typeof WORDS.en[key] === 'object', `whether ${key} counts in ${name}`);
    }
    same(language['way.in.letter'] === language['way.out.letter'], false, `a letter of its own for each way in ${name}`);
  }
}

const GERMAN = [['25,00', 2500], ['25', 2500], ['1.250,00', 125000], ['1.250', 125000], ['0,07', 7], ['1.234.567,89', 123456789]];
const FRENCH = [['25,00', 2500], ['25.00', 2500], ['1 250,00', 125000], ['1\u00a0250,00', 125000], ['1\u202f250.00', 125000]];
const SWISS = [['25.00', 2500], ['25,00', 2500], ['1\'250.00', 125000], ['1\u2019250.00', 125000]];
const SPANISH = [['25,00', 2500], ['1250,00', 125000], ['1.250,00', 125000]];

/** The decimal comma is taken where the language has it; what marks thousands is never taken for it. */
export function languages() {
  const before = locale();
  const wrong = {de: ['25.00', '1,250.00', '12,5', '1.25', '25.000,0', '1 250,00'], fr: ['1.250,00', '12,5', '1 25,00', '25.000'],
    'de-CH': ['1\'25.00', '25.0', '1 250.00'], es: ['25.00', '1,250.00', '12.50']};
  for (const [name, sound] of Object.entries({de: GERMAN, fr: FRENCH, 'de-CH': SWISS, es: SPANISH})) {
    setLocale(name);
    for (const [text, cents] of sound) same(parseAmount(text).cents, cents, `${text} in ${name}`);
    for (const text of wrong[name]) same(typeof parseAmount(text).fault, 'string', `no amount in ${name}: ${text}`);
    for (const cents of [0, 7, 125000, 99999999, 999999999999]) same(parseAmount(showAmount(cents)).cents, cents, `there and back in ${name}`);
  }
  setLocale('de');
  same([showAmount(125000), showAmount(-5)], ['1.250,00', '-0,05'], 'shown in German');
  same(parseAmount('25.00').fault, 'Vor den Cent steht „,“: 25,00.', 'a point for a comma');
  same([say('waits.count', {count: 1}), say('waits.count', {count: 2})], ['1 Auftrag wartet.', '2 Aufträge warten.'], 'plurals');
  same(parseMembers('Konto 101-150, kasse 11'), [[1, 101, 150], [5, 11, 11]], 'kinds in German');
  setLocale('xx');
  same([locale(), say('yes'), say('no such key')], ['en', 'yes', 'no such key'], 'a language that is not there');
  setLocale(before);
}

/** Other currencies have no decimals, or three. */
export function digits() {
  same([parseAmount('1,250', {}, 0).cents, parseAmount('1,250.00', {}, 0).cents, parseAmount('1.5', {}, 0).cents], [1250, undefined, undefined], 'none');
  same([parseAmount('1.250', {}, 3).cents, parseAmount('1.25', {}, 3).cents, parseAmount('2', {}, 3).cents], [1250, undefined, 2000], 'three');
  same([showAmount(1250, 0), showAmount(1250, 3), showAmount(-5, 3), showAmount(7, 0)], ['1,250', '1.250', '-0.005', '7'], 'shown');
}

/** A certificate's end is said from thirty days on; a clock, from a minute on. */
export function times() {
  const at = Date.parse('2026-11-01T00:00:00Z');
  const left = text => daysLeft(text, at);
  same([left('Nov 20 00:00:00 2026 GMT'), left('Nov  5 12:00:00 2026 GMT'), left('Dec  1 00:00:00 2026 GMT')], [19, 4, 30], 'days left');
  same([left('Dec  3 00:00:00 2026 GMT'), left('Oct  1 00:00:00 2026 GMT'), left(undefined), left('x')], [null, 0, null, null], 'others');
  const here = Date.now();
  const date = ahead => new Date(here + ahead).toUTCString();
  setClock(date(86400000), here);
  same([clockBehind() > 86000, Math.abs(now() - here - 86400000) < 5000], [true, true], 'a clock that is a day slow');
  setClock(date(-120000), here);
  same(clockBehind() < -100, true, 'a clock that is fast');
  setClock(date(-30000), here);
  same(clockBehind(), null, 'half a minute');
  same([setClock(null), setClock('x')], [null, null], 'no time');
  setClock(date(0), here);
  same([clockBehind(), Math.abs(now() - Date.now()) < 50], [null, true], 'the right time');
}

/** A line can be corrected of the present day, by another, once; of a transfer the other account is known. */
export function corrections() {
  const rows = [
    row(1, 'post', {account: 101, branch: 1, delta: 500, teller: 11}, {balance: 1, branch: 1, entry: 1}),
    {...row(2, 'post', {account: 101, branch: 1, delta: -500, teller: 12}, {balance: 1, branch: 1, entry: 2}), badge: 'tom'},
    {...row(3, 'transfer', {amount: 5, branch: 1, source: 101, target: 102, teller: 12}, {branch: 1, first: 3, second: 4, source: 1, target: 1}), badge: 'tom'},
    {...row(4, 'correct', {account: 102, branch: 1, delta: 5, entry: 4, other: 101, teller: 11}, {branch: 1, first: 5, second: 6, source: 1, target: 1})},
  ];
  const known = knownEntries(rows, 'tess');
  same([known.get('1 3').other, known.get('1 3').kind, known.get('1 4').other], [102, 'out-transfer', 101], 'legs of a transfer');
  same([3, 4].map(entry => known.get(`1 ${entry}`).isCorrected), [true, true], 'both legs are corrected');
  same([5, 6].map(entry => known.get(`1 ${entry}`).kind), ['correction', 'correction'], 'corrections');
  const noon = new Date(2026, 10, 28, 12).getTime();
  const can = (entry, more = {}, closed = 0) => canCorrect({branch: 1, entry, teller: 12, moment: noon / 1000 - 60, ...more}, known, {branch: 1, teller: 11}, closed, noon);
  same([1, 2, 3, 5, 9].map(entry => can(entry)), [false, true, false, false, true], 'own, a colleague\'s, corrected, a correction, unknown');
  const refused = rule => ({...row(5, 'correct', {account: 101, branch: 1, delta: -500, entry: 2, other: 0, teller: 11}, {name: 'x', rule}), state: 'refused'});
  const canAfter = rule => canCorrect({branch: 1, entry: 2, teller: 12, moment: noon / 1000 - 60}, knownEntries([...rows, refused(rule)], 'tess'), {branch: 1, teller: 11}, 0, noon);
  same([canAfter(3), canAfter(12)], [false, true], 'what the bank refused for good');
  const asked = entry => canBeAsked({branch: 1, entry, teller: 11, moment: noon / 1000 - 60}, known, {branch: 1}, 0, noon);
  same([1, 2, 3, 5, 9].map(asked), [true, false, false, false, false], 'a colleague is asked about one\'s own alone');
  const undone = {...row(6, 'correct', {account: 101, branch: 1, delta: 500, entry: 1, other: 0, teller: 12}, {balance: 1, branch: 1, entry: 7}), badge: 'tom'};
  const after = knownEntries([...rows, undone], 'tess');
  same(canBeAsked({branch: 1, entry: 1, teller: 11, moment: noon / 1000 - 60}, after, {branch: 1}, 0, noon), false, 'nor about what is corrected');
  same([can(9, {teller: 11}), can(9, {branch: 2}), can(9, {moment: noon / 1000 - 86400}), can(9, {}, noon - 1000)], [false, false, false, false], 'none');
}

/** A day is typed as the language of the page has it, or as 2026-11-28. */
export function days() {
  const before = locale();
  const plain = parseMoment('2026-11-28 17:30', false);
  for (const [name, day] of [['de', '28.11.2026'], ['fr', '28/11/2026'], ['es', '28/11/2026'], ['en', '11/28/2026'], ['en-GB', '28/11/2026']]) {
    setLocale(name);
    same([exampleDay(), parseMoment(`${day} 17:30`, false), parseMoment('2026-11-28 17:30', false)], [day, plain, plain], `a day in ${name}`);
    same([isMoment(day), isMoment('28-11-2026'), isMoment(`${day} 17`), isMoment('x')], [true, false, false, false], `what is a day in ${name}`);
  }
  setLocale('de');
  same([parseMoment('31.02.2026', false), parseMoment('1.3.2026', true) - parseMoment('1.3.2026', false)], [null, 86399], 'days of a month');
  setLocale(before);
}
