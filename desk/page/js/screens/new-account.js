import {form} from '../form.js';
import {account, amount, branchField, amountText, field} from '../fields.js';
import {showAmount} from '../amounts.js';
import {exampleDay, isMoment, parseMoment, plainDay} from '../dates.js';
import {openAccount} from '../new-customers.js';
import {say} from '../words.js';

/** How low an account may be: 0, and not -0, if it may not be overdrawn. */
const floorOf = overdraft => (overdraft === 0 ? 0 : -overdraft);

/** A typed day as the register has it, or '' where none was typed. */
const plainBirth = text => (text === null ? '' : plainDay(parseMoment(text.trim(), false) * 1000));

/** What passes as a day that is in the calendar. */
const DAY = {test: text => isMoment(text) && parseMoment(text.trim(), false) !== null};
/** One line that says something, or nothing at all. */
const LINE = /^[^\p{Cc}]{0,200}$/u;

/** The fields of a new customer. */
function customerFields() {
  const birth = {example: exampleDay()};
  const text = (name, label, more = {}) => field({
    name, label: say(label), kind: 'text', pattern: LINE, fault: say('purpose.fault'), optional: true, ...more,
  });
  return [
    text('name', 'find.name', {pattern: /^(?=.*\S)[^\p{Cc}]{1,200}$/u, fault: say('customer.name.fault'), optional: false}),
    text('born', 'customer.birth', {pattern: DAY, fault: say('customer.birth.fault', birth), hint: say('customer.birth.hint', birth)}),
    text('address', 'customer.address'), text('document', 'customer.document'),
  ];
}

/** Whether the owner is named with the account, as is usual where there is an office. */
const ownerField = (/** @type {Desk} */ desk) => field({
  name: 'owner', label: say('newAccount.owner'), kind: 'choice', value: desk.office?.isThere() ? 'new' : 'later',
  options: ['new', 'later'].map(owner => [owner, say(`newAccount.owner.${owner}`)]),
});

/** What would be done, once the number is typed. */
function sentence({account: of, branch, overdraft, owner, name}) {
  if (of === null) return '';
  const values = {account: of, branch, floor: amountText(overdraft === null ? null : floorOf(overdraft)), name};
  return say(owner === 'new' ? 'newAccount.readsFor' : 'newAccount.reads', values);
}

async function make(/** @type {Desk} */ desk) {
  const none = showAmount(0);
  const opened = form({
    fields: [
      account({label: say('newAccount.number')}), branchField(desk),
      amount({
        name: 'overdraft', label: say('newAccount.overdraft'), value: none, least: 0, most: 999999999, hint: say('newAccount.hint', {none}),
      }),
      ownerField(desk), ...customerFields(),
    ],
    button: say('newAccount.button'),
    isBeside: true,
    clear: ['account', 'name', 'born', 'address', 'document'],
    reads: sentence,
    send({account: of, branch, overdraft, owner, name, born, address, document}) {
      const customer = {name: name?.trim() ?? '', born: plainBirth(born), address: address?.trim() ?? '', document: document?.trim() ?? ''};
      return openAccount(desk, {account: of, branch, floor: floorOf(overdraft)}, owner === 'new' ? customer : null);
    },
  });
  const fit = () => {
    const isNew = opened.fields.owner.read().value === 'new';
    for (const name of ['name', 'born', 'address', 'document']) opened.fields[name].row.hidden = !isNew;
  };
  opened.element.addEventListener('change', fit);
  fit();
  return {elements: opened.element, focus: opened.focus};
}

/** @type {DeskScreen} */
export default {id: 'new-account', key: 'n', asks: ['new-account'], make};
