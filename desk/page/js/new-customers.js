// A new customer comes with a new account: once the bank has opened the account, the office keeps them as its owner, and a second
// person accepts them. If the bank refuses the account, nothing is proposed.
import {h, button} from './dom.js';
import {inOneLine, shownDate} from './account-card.js';
import {say} from './words.js';
import * as outcome from './outcome.js';

/** @typedef {{name: string, address: string, born: string, document: string}} Customer */

const ofOthers = async (/** @type {Desk} */ desk, /** @type {number} */ account) => (await desk.customersDue()).filter(one => one.account !== account);
const forget = async (/** @type {Desk} */ desk, /** @type {number} */ account) => desk.keepCustomers(await ofOthers(desk, account));

/** Opens an account whose owner is new, or has no name yet. The customer is kept until the office has them, whatever is killed meanwhile. */
export async function openAccount(/** @type {Desk} */ desk, body, /** @type {Customer | null} */ customer) {
  const {account} = body;
  if (customer) await desk.keepCustomers([...await ofOthers(desk, account), {account, ...customer}]);
  const state = await desk.act('new-account', body);
  if (state !== 'done' && state !== 'refused') await forget(desk, account); // nothing was sent
  return state;
}

/** Proposes a customer who is kept, and says what came of it. */
async function propose(/** @type {Desk} */ desk, {account, ...texts}) {
  const reply = await desk.office.propose(account, texts);
  if (reply?.status === 200) {
    await forget(desk, account);
    outcome.add(h('p', {}, say('customer.proposed', {name: texts.name})));
    return;
  }
  outcome.add(h('p', {class: 'reason'}, say('customer.failed', {name: texts.name, why: reply?.body.office ?? say('office.absent')})),
    button(say('customer.again', {name: texts.name}), event => {
      event.target.disabled = true;
      return propose(desk, {account, ...texts});
    }),
    ...reply === null ? [] : [' ', button(say('customer.drop'), async event => {
      event.target.disabled = true;
      await forget(desk, account);
    })]);
}

/** What has become of the account whose owner is kept: `done` proposes them, `refused` forgets them. */
export async function accountSettled(/** @type {Desk} */ desk, request, event) {
  if (request.name !== 'new-account') return;
  const {account} = JSON.parse(request.body);
  const due = (await desk.customersDue()).find(one => one.account === account);
  if (event === 'refused') await forget(desk, account);
  else if (due) await propose(desk, due);
}

/** Takes up what was left when the page was closed: accounts that are open by the journal, and whose owners are not proposed yet. */
export async function resumeCustomers(/** @type {Desk} */ desk) {
  for (const due of await desk.customersDue()) {
    const row = (await desk.rows(true)).filter(one => one.name === 'new-account' && JSON.parse(one.body).account === due.account).at(-1);
    if (!row || row.state === 'refused' || row.state === 'aside') await forget(desk, due.account);
    else if (row.state === 'done') {
      outcome.note(say('customer.left'), say('end.newAccount'), h('p', {}, String(due.account)));
      await propose(desk, due);
    }
  }
}

const valuesOf = ({name, accounts, by}) => ({name, accounts: accounts.join(say('office.comma')), by});

/** A proposal of a colleague, with all that the second person has to look at. */
function ofColleague(one, {accept}) {
  const {name, born, address, document} = one;
  const facts = [[say('customer.birth'), shownDate(born)], [say('customer.address'), inOneLine(address)], [say('customer.document'), document]]
    .filter(([, value]) => value !== '').map(([label, value]) => h('span', {}, say('office.given', {label, value})));
  return h('div', {class: 'ask', 'data-customer': one.holder}, h('p', {}, say('customer.asked', valuesOf(one))),
    h('p', {class: 'names'}, facts), button(say('customer.accept', {name}), () => accept(one), {class: 'main'}));
}

/** One's own proposal. */
function ofOwn(one, {takeBack, see}) {
  return h('div', {class: 'ask', 'data-customer': one.holder}, h('p', {}, say('customer.mine', valuesOf(one))),
    button(say('office.back'), () => takeBack(one)), ' ', button(say('office.seen'), () => see(one)));
}

/** The strips of new customers: those who wait for this user, and their own that they have not put away. */
export function customerStrips({proposals = [], proposed = []}, calls, isSeen) {
  return [...proposals.map(one => ofColleague(one, calls)), ...proposed.filter(one => !isSeen(one)).map(one => ofOwn(one, calls))];
}
