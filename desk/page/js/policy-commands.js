// The bodies of the commands of the policy (docs/COMMANDS.md), from what was typed.
import {parseMoment} from './dates.js';
import {say} from './words.js';

/** The kinds of items, by number from 1. */
export const KINDS = ['account', 'teller', 'branch', 'history', 'drawer', 'vault'];

/** The last moment of a triple that never ends. */
export const FOREVER = 99999999999;

/** The names of kinds in the language of the page, as they are typed. */
const kindNames = () => KINDS.map(kind => say(`item.${kind}`));

/** `account 101-150, drawer 11`, in the language of the page, as intervals of items, or null. */
export function parseMembers(text) {
  const members = [];
  const names = kindNames().map(name => name.toLowerCase());
  for (const piece of text.split(',')) {
    const found = /^ *(\p{Letter}+) +([1-9][0-9]{0,8})(?: *- *([1-9][0-9]{0,8}))? *$/u.exec(piece);
    const kind = found ? names.indexOf(found[1].toLowerCase()) + 1 : 0;
    if (kind === 0) return null;
    const [low, high] = [Number(found[2]), Number(found[3] ?? found[2])];
    if (high < low) return null;
    members.push([kind, low, high]);
  }
  return members.length <= 32 ? members : null;
}

/** The body of a command: {body}, or {faults} by field. */
export function bodyOf(name, values) {
  if (name === 'define-set') return bodyOfSet(values);
  if (name === 'grant') return bodyOfGrant(values);
  return {body: values};
}

function bodyOfSet({members: text, set}) {
  const members = parseMembers(text);
  if (members) return {body: {members, set}};
  return {faults: {members: say('members.fault', {kinds: kindNames().join(', ')})}};
}

function bodyOfGrant({first, last, ...rest}) {
  if (first === null && last === null) return {body: rest};
  const from = first === null ? 0 : parseMoment(first, false);
  const to = last === null ? FOREVER : parseMoment(last, true);
  if (from === null) return {faults: {first: say('moment.none')}};
  if (to === null) return {faults: {last: say('moment.none')}};
  if (to < from) return {faults: {last: say('moment.order')}};
  return {body: {...rest, first: from, last: to}};
}
