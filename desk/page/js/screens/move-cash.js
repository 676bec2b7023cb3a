import {h} from '../dom.js';
import {form} from '../form.js';
import {field, amount, release, amountText} from '../fields.js';
import {showAmount} from '../amounts.js';
import {isDue, moveLink, withoutMove} from '../cash-due.js';
import {now} from '../dates.js';
import {placesOf} from '../operations.js';
import {say} from '../words.js';

const placeOf = (which, other) => (which === 'other' ? other : Number(which));

/** A move as a sentence, by which of its places is the vault. */
function moveText(move) {
  return say(`cash.${placesOf(move)}`, {...move, amount: amountText(move.amount)});
}

/** What is to be moved out of the drawer of whoever works here, each as a link that fills it in. */
function dueList(desk) {
  const {branch, teller} = desk.place;
  const own = desk.dueMoves.filter(move => move.branch === branch && move.source === teller && isDue(move, now()));
  if (own.length === 0) return null;
  return h('section', {class: 'past'}, h('h2', {}, say('due.title')), h('ul', {class: 'due'}, own.map(move => h('li', {},
    h('a', {href: moveLink(move)}, say('due.link', {amount: showAmount(move.amount), source: move.source, target: move.target}))))));
}

/** The choices of places, and of these the one that an address names. */
function choicesOf(desk, given) {
  const {teller} = desk.place;
  const own = teller === null ? [] : [[String(teller), say('cash.own', {teller})]];
  const places = [['0', say('cash.vault')], ...own, ['other', say('cash.other')]];
  const chosen = (name, otherwise = null) => {
    const wanted = given.get(name);
    return wanted === null ? otherwise : places.some(([value]) => value === wanted) ? wanted : 'other';
  };
  const names = ['from', 'to'];
  const other = names.filter(name => chosen(name) === 'other').map(name => given.get(name))[0] ?? '';
  return {places, from: chosen('from', '0'), to: chosen('to', teller === null ? 'other' : String(teller)), other};
}

async function make(desk, {given, again}) {
  const {places, from: source, to: target, other: number} = choicesOf(desk, given);

  async function sent({from, to, other, amount: cents, release: by}) {
    if ((from === 'other' || to === 'other') && other === null) return {faults: {other: say('cash.other.fault')}};
    const move = {amount: cents, branch: desk.place.branch, source: placeOf(from, other), target: placeOf(to, other)};
    if (move.source === move.target) return {faults: {to: say('cash.same')}};
    if (move.branch === null) {
      location.hash = 'session?lacks=branch&then=cash';
      return 'lacks branch';
    }
    const state = await desk.act('move-cash', move, by);
    if (state === 'done' && withoutMove(desk.dueMoves, move) !== desk.dueMoves) {
      await desk.setDueMoves(withoutMove(desk.dueMoves, move));
      await again();
    }
    return state;
  }

  const move = form({
    fields: [
      field({name: 'from', label: say('cash.from'), kind: 'choice', value: source, options: places}),
      field({name: 'to', label: say('cash.to'), kind: 'choice', value: target, options: places}),
      field({name: 'other', label: say('cash.number'), kind: 'number', optional: true, value: number}),
      amount({most: 999999999, value: given.get('amount') ?? ''}), release(),
    ],
    button: say('cash.button'),
    clear: ['amount', 'release'],
    reads: ({from, to, other, amount: cents}) => (cents === null ? ''
      : moveText({source: placeOf(from, other), target: placeOf(to, other), amount: cents})),
    send: sent,
  });
  const {from, to, other} = move.fields;
  const fit = () => { other.row.hidden = ![from, to].some(one => one.read().value === 'other'); };
  move.element.addEventListener('change', fit);
  fit();
  return {elements: [dueList(desk), move.element], focus: move.focus};
}

/** @type {DeskScreen} */
export default {id: 'cash', key: 'm', asks: ['move-cash'], make};
