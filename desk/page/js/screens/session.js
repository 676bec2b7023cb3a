import {h, button} from '../dom.js';
import {form} from '../form.js';
import {field} from '../fields.js';
import {confirmed} from '../dialog.js';
import {cashOver} from '../drawer-cash.js';
import {nameOf} from '../names.js';
import {hasWorkedAt} from '../place.js';
import {say} from '../words.js';
import * as outcome from '../outcome.js';

/** Whether a drawer was put on in these rows and not off since. */
function leavesDrawerOn(rows) {
  const moves = rows.filter(row => row.state === 'done' && (row.name === 'drawer-on' || row.name === 'drawer-off'));
  return moves.at(-1)?.name === 'drawer-on';
}

function signOutButton(desk, again) {
  return button(say('signOut'), async () => {
    const question = await desk.waits() ? say('signOut.waits') : leavesDrawerOn(await desk.rows()) ? say('signOut.drawer') : null;
    if (question && !await confirmed(question, say('signOut'))) return;
    const reply = await desk.end();
    await again();
    if (desk.session) outcome.unanswered(reply, say('signOut.still'));
    else {
      const how = say(reply.status === 200 ? 'signOut.ended' : 'signOut.over');
      outcome.answered(say('signOut.done'), how, String(reply.body.ended ?? ''));
    }
  });
}

/** Whether a drawer is free, or was put on here by whoever signs in; else they are asked whether they hold it. */
async function isOwn(/** @type {Desk} */ desk, {teller, holder}) {
  if (holder === 0 || cashOver(await desk.rows(true), teller).isOn) return true;
  return confirmed(say('session.isOwn', {teller, user: nameOf(holder)}), say('session.mine'));
}

/** Whether another place is meant than the last one that was worked at, of which the bank shows nothing. */
async function isMoved(/** @type {Desk} */ desk, {branch, teller}) {
  const {branch: before, teller: drawer} = desk.place;
  const isSame = branch === before && (teller === drawer || teller === null || drawer === null);
  const values = {branch, before, drawer: drawer ?? say('header.none'), teller: teller ?? say('header.none')};
  if (isSame || !await hasWorkedAt(desk, desk.place)) return true;
  return confirmed(say('session.other', values), say('session.here'), [say('session.before', values)]);
}

/**
 * What is wrong with a branch and a drawer by the proof of that branch, or null. A branch that is shown to nobody, or
 * not to one who is shown another, is doubted once; one that is shown no proof is asked about a place that is another
 * than before.
 */
async function faultsOf(/** @type {Desk} */ desk, place, /** @type {Set<number>} */ doubted) {
  const {branch, teller} = place;
  const {proof, rule} = await desk.proofOf(branch);
  const drawer = proof?.tellers.find(one => one.teller === teller);
  if (proof && teller !== null && !drawer) return {teller: say('session.noDrawer', {branch, teller})};
  if (drawer && !await isOwn(desk, drawer)) return {teller: say('session.held', {teller, user: nameOf(drawer.holder)})};
  if (rule === 6) return {branch: say('session.noBranch', {branch})};
  if (proof || doubted.has(branch)) return null;
  const isHidden = rule === 2 || (rule === 3 && desk.allowed.proof === true);
  if (isHidden && !await hasWorkedAt(desk, place)) {
    doubted.add(branch);
    return {branch: say('session.hidden', {branch})};
  }
  return await isMoved(desk, place) ? null : {branch: say('refused.nothing')};
}

async function make(/** @type {Desk} */ desk, {given, changed, again, signIn, first}) {
  const {branch, teller} = desk.place;
  const doubted = new Set(); // branches
  let isBegun = false; // whether this form opened the session

  async function sent(values) {
    if (!desk.session) {
      isBegun = true;
      const hasWaited = await desk.waits();
      if (!await signIn()) return null;
      if (hasWaited) {
        await desk.setPlace(values);
        return again(); // what comes of it is shown here, and belongs to the shift before
      }
    }
    const faults = await faultsOf(desk, values, doubted);
    if (faults) return {faults};
    await desk.setPlace(values);
    if (isBegun && !leavesDrawerOn(await desk.rows())) await desk.beginShift();
    changed();
    const then = given.get('then') ?? first();
    const isDrawerFirst = first() === 'post' && !await hasWorkedAt(desk, values);
    location.hash = isDrawerFirst ? `drawer?then=${then}` : then;
    return null;
  }

  const begin = form({
    fields: [
      field({name: 'branch', label: say('branch'), kind: 'number', value: branch ?? ''}),
      field({name: 'teller', label: say('drawer.number'), kind: 'number', value: teller ?? '', optional: true, hint: say('session.hint')}),
    ],
    button: say(desk.session ? 'session.here' : 'signIn'),
    send: sent,
  });
  const lacks = given.get('lacks');
  const nothing = say(lacks === 'drawer' ? 'session.lacks.drawer' : 'session.lacks.branch');
  const lead = lacks ? h('p', {class: 'lead', role: 'alert'}, nothing) : null;
  const who = desk.session ? say('session.at', {badge: desk.badge, session: desk.session}) : say('session.none', {badge: desk.badge});
  const elements = [lead, h('p', {class: 'who'}, who), begin.element];
  return {elements: desk.session ? [...elements, signOutButton(desk, again)] : elements, focus: begin.focus};
}

/** @type {DeskScreen} */
export default {id: 'session', key: 'i', asks: [], make};
