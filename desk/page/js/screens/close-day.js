import {h, button} from '../dom.js';
import {form} from '../form.js';
import {branchField} from '../fields.js';
import {now, plainDay, showClock, showDay, showTime} from '../dates.js';
import {readProof} from '../reports.js';
import {checkList, ownDrawerPaper, proofPaper} from '../proof-paper.js';
import {lastClosing} from '../known-entries.js';
import {confirmed} from '../dialog.js';
import {say} from '../words.js';
import * as outcome from '../outcome.js';

/** Whether a proof that was read is still that of the day which was closed. */
function isOfClosed({proof}, reply) {
  return proof.day === reply.closed && proof.sums['BRANCH BALANCE'] === reply.balance && proof.sums['VAULT CASH'] === reply.cash;
}

/** What is asked before a day is closed: more, if one of this branch was closed today. */
async function isMeant(/** @type {Desk} */ desk, branch, day) {
  const closed = lastClosing(await desk.allRows(), branch);
  const values = {branch, day, date: showDay(now()), time: showClock(closed), before: day - 1};
  const lines = [say('day.question.text'), ...plainDay(closed) === plainDay(now()) ? [say('day.again', values)] : []];
  return confirmed(say('day.question', values), say('screen.day'), lines);
}

async function make(/** @type {Desk} */ desk, {given}) {
  const paper = h('div', {class: 'results'});

  /** The proof of a branch, which is shown, or null. */
  async function readNow(branch) {
    const found = await desk.ask('proof', {branch}, say('asked.proof', {branch}), ({text}) => ({proof: readProof(text), text}));
    if (!found) paper.replaceChildren();
    else show(found, say('proof.caption', {branch, day: found.proof.day, date: showDay(now()), time: showTime(now()), badge: desk.badge}));
    return found;
  }

  function show({proof, text}, caption) {
    if (desk.isTeller()) paper.replaceChildren(...ownDrawerPaper(proof, desk.place.teller, caption));
    else paper.replaceChildren(checkList(proof), ...proofPaper(proof, text, caption));
  }

  /** Shows the proof of a day that was closed, and keeps it in the journal. */
  async function keep(found, {answered: at}) {
    const {branch, day} = found.proof;
    const caption = say('proof.closed', {branch, day, date: showDay(at), time: showTime(at), badge: desk.badge});
    await desk.note(caption, {at}, say('end.kept'), 'done', {paper: found.text});
    show(found, caption);
  }

  async function closeDay() {
    const {value: branch} = ask.fields.branch.read();
    if (branch === undefined) {
      ask.element.requestSubmit(); // which says what is wrong
      return;
    }
    outcome.clear();
    const found = await readNow(branch);
    if (!found || !await isMeant(desk, branch, found.proof.day) || await desk.act('close-day', {branch}) !== 'done') return;
    const request = await desk.lastRequest();
    if (isOfClosed(found, JSON.parse(request.reply))) await keep(found, request);
    else outcome.add(h('p', {}, say('day.moved')));
  }

  const ask = form({
    fields: [branchField(desk)],
    button: say('proof.show'),
    async send({branch}) {
      outcome.clear();
      return await readNow(branch) ? 'shown' : 'refused';
    },
  });
  const row = given.get('kept') ? (await desk.rows(true)).find(one => String(one.id) === given.get('kept') && one.paper) : null;
  if (row) show({proof: readProof(row.paper), text: row.paper}, row.text);
  const close = button(say('screen.day'), closeDay, {class: 'danger'});
  return {elements: [h('div', {class: 'row'}, ask.element, close), paper], focus: ask.focus};
}

/** @type {DeskScreen} */
export default {id: 'day', key: 'c', isWide: true, asks: ['proof'], make};
