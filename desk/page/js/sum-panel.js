// What the panel says of a sum that goes in parts: what is booked and by which entries, what is left, and what can be done about it.
import {h, button} from './dom.js';
import {form} from './form.js';
import {release} from './fields.js';
import {OPERATIONS} from './operations.js';
import {refusalText} from './refusals.js';
import {sumText, sumValues} from './journal.js';
import {sendSum, sumOf} from './sums.js';
import {say} from './words.js';
import * as outcome from './outcome.js';

/** What came of a sum of which all is booked. */
function whole(/** @type {Sum} */ sum) {
  const last = sum.done.at(-1);
  const {label, figure} = OPERATIONS[sum.name].end(JSON.parse(last.body), JSON.parse(last.reply));
  const values = sumValues(sum);
  outcome.put('done', say('done'), h('p', {class: 'asked'}, sumText(sum)), h('p', {class: 'label'}, label),
    h('p', {class: 'figure', 'data-name': 'figure'}, figure), h('p', {}, say('parts.all', values)), h('p', {}, say('parts.entries', values)));
}

/** Why the last part was refused, and what to do. */
function reasonOf(/** @type {Sum} */ sum) {
  const last = sum.rows.at(-1);
  if (last.state !== 'refused') return [];
  const {title, advice, rule} = refusalText(JSON.parse(last.reply), last.name);
  return [h('p', {class: 'reason'}, title), h('p', {}, advice), h('p', {class: 'small'}, rule)];
}

/** Sends what is left, with the number of a release for the first of it, if one was typed. */
function restForm(/** @type {Desk} */ desk, /** @type {Sum} */ sum) {
  const by = release();
  return form({
    fields: [by], button: say('parts.send', sumValues(sum)),
    send: ({release: number}) => sendSum(desk, sum, new Map([[sum.left[0].part, number]])),
  }).element;
}

/** A sum of which a part is booked, or nothing. */
function unfinished(/** @type {Desk} */ desk, /** @type {Sum} */ sum, asking) {
  const isBegun = sum.done.length > 0;
  const values = sumValues(sum);
  const how = isBegun ? [h('p', {class: 'label'}, say('parts.booked', values)), h('p', {class: 'label'}, say('parts.rest', values))]
    : [sum.isAside ? null : h('p', {}, say('refused.nothing'))];
  outcome.put(isBegun ? 'refused begun' : 'refused', say(isBegun ? 'parts.half' : 'notDone'), h('p', {class: 'asked'}, sumText(sum)), how,
    sum.isAside ? h('p', {}, say('parts.aside')) : null, reasonOf(sum));
  outcome.add(asking.offerSum(sum));
  if (isBegun && sum.left.length > 0) outcome.add(restForm(desk, sum));
  if (isBegun) outcome.add(h('p', {}, button(say('parts.back', values), () => asking.takeBack(sum))));
}

/** Shows what has become of a sum by now: while the rest is being sent, how far it is. */
export function makeSumPanel({desk, asking}) {
  let turn = 0;
  return async function show(/** @type {string} */ id) {
    turn += 1;
    const mine = turn;
    const sum = sumOf(await desk.rows(true), id);
    if (mine !== turn || !sum) return;
    if (sum.isWhole) whole(sum);
    else if (desk.sumSent === id || sum.isWaiting) {
      outcome.note(say('notYet'), sumText(sum), h('p', {}, say('parts.sending', sumValues(sum))));
    } else unfinished(desk, sum, asking);
  };
}
