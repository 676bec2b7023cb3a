import {h} from '../dom.js';
import {form} from '../form.js';
import {field, account, amount, branchField, amountText} from '../fields.js';
import {wayField} from '../ways.js';
import {RELEASED, operationOf} from '../released.js';
import {nameOf} from '../names.js';
import {say} from '../words.js';

function fieldsOf(desk) {
  const place = (name, label) => field({name, label, kind: 'number', least: 0});
  const procedures = Object.keys(RELEASED).map(name => [name, say(`procedure.${name}`)]);
  return [
    field({name: 'beneficiary', label: say('release.user'), kind: 'number', most: 9999}),
    field({name: 'procedure', label: say('release.what'), kind: 'pick', options: procedures}),
    branchField(desk),
    field({name: 'teller', label: say('release.drawer'), kind: 'number'}),
    field({name: 'entry', label: say('correct.entry'), kind: 'number'}),
    wayField(),
    account(), account({name: 'source', label: say('transfer.from')}), account({name: 'target', label: say('transfer.to')}),
    account({name: 'other', label: say('correct.other'), hint: say('release.other.hint'), optional: true}),
    place('from', say('release.from')), place('to', say('release.to')),
    amount(), amount({name: 'cash', label: say('drawer.cash'), least: 0, most: 999999999}),
  ];
}

/** What would be given, once it is known to whom. */
function sentence({beneficiary, procedure, amount: cents, cash}) {
  if (beneficiary === null) return '';
  const amountOf = amountText(RELEASED[procedure].includes('cash') ? cash : cents);
  return say('release.reads', {user: nameOf(beneficiary), what: say(`procedure.${procedure}`), amount: amountOf});
}

async function make(desk) {
  const given = form({
    fields: fieldsOf(desk),
    button: say('release.button'),
    isBeside: true,
    clear: ['way', 'account', 'source', 'target', 'amount', 'cash', 'entry', 'other'],
    reads: sentence,
    send: ({beneficiary, ...values}) => desk.act('release', {beneficiary, operation: operationOf(values)}),
  });
  const pick = given.fields.procedure.input;
  const fit = () => {
    const shown = ['beneficiary', 'procedure', 'branch', ...RELEASED[pick.value]];
    for (const [name, one] of Object.entries(given.fields)) one.row.hidden = !shown.includes(name);
  };
  pick.addEventListener('change', fit);
  fit();
  return {elements: [h('p', {class: 'lead'}, say('release.lead')), given.element], focus: given.focus};
}

/** @type {DeskScreen} */
export default {id: 'release', key: 'r', hasTitle: true, asks: ['release'], make};
