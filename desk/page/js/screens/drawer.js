import {h} from '../dom.js';
import {form} from '../form.js';
import {field, release} from '../fields.js';
import {counting} from '../counting.js';
import {cashOver, knownOf} from '../drawer-cash.js';
import {cashChart} from '../chart.js';
import {showAmount} from '../amounts.js';
import {drawerFault} from '../place.js';
import {countMeant} from '../second-look.js';
import {say} from '../words.js';
import * as outcome from '../outcome.js';

/** A line that opens to what the drawer should hold; it is closed at first, so that the count comes from the cash. */
function expectedLine({cents, isOfBank}) {
  const key = cents === null ? 'drawer.unknown' : isOfBank ? 'drawer.expected.bank' : 'drawer.expected';
  const text = say(key, {expected: cents === null ? '' : showAmount(cents)});
  return h('details', {class: 'expected'}, h('summary', {}, say('drawer.should')), h('p', {'data-name': 'expected'}, text));
}

/** The state that a form gets of a drawer that was sent: a number that the bank refuses is said beside its field. */
async function settled(/** @type {Desk} */ desk, place, state) {
  const fault = state === 'refused' ? drawerFault(place, JSON.parse((await desk.lastRequest()).reply).rule) : null;
  return fault ? {faults: {teller: fault}} : state;
}

/** Puts a drawer on or off, or says why not: the state that a form gets. */
async function sent(/** @type {Desk} */ desk, {way, teller: of, cash, release: number}) {
  const {branch} = desk.place;
  if (branch === null) {
    location.hash = 'session?lacks=branch&then=drawer';
    return 'lacks branch';
  }
  if (way === 'on') {
    const state = await desk.act('drawer-on', {branch, cash, teller: of}, number);
    if (state === 'done') await desk.setPlace({branch, teller: of});
    return settled(desk, {branch, teller: of}, state);
  }
  const noted = await countMeant(of, await knownOf(desk, of), cash);
  if (noted === null) return 'kept';
  return settled(desk, {branch, teller: of},
    await desk.act('drawer-off', {branch, counted: cash, teller: of}, null, noted));
}

async function make(/** @type {Desk} */ desk, {given, changed, again}) {
  const {teller} = desk.place;
  const known = await knownOf(desk, teller);
  const count = counting('cash', say('drawer.cash'));
  const by = release();
  const expected = expectedLine(known);

  async function send(values) {
    const state = await sent(desk, values);
    if (state !== 'done') return state;
    changed();
    await again();
    const shift = cashOver(await desk.drawerRows(), values.teller);
    if (values.way === 'off' && shift.points.length > 1) outcome.add(cashChart(shift));
    const then = given.get('then');
    if (values.way === 'on' && then && then !== 'post') outcome.add(h('p', {}, h('a', {href: `#${then}`}, say('drawer.then'))));
    return state;
  }

  const ways = [['on', say('drawer.on'), 'in'], ['off', say('drawer.off'), 'out']];
  const drawer = form({
    fields: [
      field({name: 'way', label: say('way.label'), kind: 'choice', value: known.isOn ? 'off' : 'on', options: ways}),
      field({name: 'teller', label: say('drawer.number'), kind: 'number', value: teller ?? ''}),
      count, by,
    ],
    button: ({way}) => ({text: say(way === 'on' ? 'drawer.button.on' : 'drawer.button.off'), kind: ''}),
    isBeside: true,
    clear: ['cash', 'release'],
    reads: ({way, teller: of}) => say(way === 'on' ? 'drawer.reads.on' : 'drawer.reads.off', {teller: of}),
    send,
  });
  const fit = () => {
    const {way, teller: of} = drawer.fields;
    const isOff = way.read().value === 'off';
    by.row.hidden = isOff;
    expected.hidden = !isOff || of.read().value !== teller;
  };
  drawer.element.addEventListener('input', fit);
  drawer.element.addEventListener('change', fit);
  fit();
  count.row.before(expected);
  return {elements: drawer.element, focus: () => count.input.focus()};
}

/** @type {DeskScreen} */
export default {id: 'drawer', key: 'd', asks: ['drawer-on', 'drawer-off'], make};
