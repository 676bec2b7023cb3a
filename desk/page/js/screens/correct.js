import {h} from '../dom.js';
import {form} from '../form.js';
import {field, account, amount, release, amountText} from '../fields.js';
import {lacksDrawer} from './post.js';
import {moveAfter} from '../cash-due.js';
import {offerMove} from '../due-moves.js';
import {say} from '../words.js';

/** What an entry can have been: the way of its money, and whether it was a transfer's. */
const KINDS = [['in', 'in'], ['out', 'out'], ['in-transfer', 'in'], ['out-transfer', 'out']];
const wayOf = kind => (kind?.startsWith('out') ? 'out' : 'in');
const isTransfer = kind => kind?.endsWith('-transfer') ?? false;

/** The kinds that the address leaves open: a statement knows the way, and often no more. */
function kindField(given) {
  const [kind, way] = [given.get('kind'), given.get('way')];
  const options = KINDS.filter(([name]) => !way || wayOf(name) === way);
  return field({
    name: 'kind', label: say('correct.kind'), kind: 'choice', value: kind, fault: say('correct.kind.fault'),
    options: options.map(([name, mark]) => [name, say(`correct.kind.${name}`), mark]),
  });
}

/** What would be sent, and whose drawer moves by it. */
function sentence(desk, {entry, kind, amount: cents, account: of, drawer}) {
  if (entry === null || kind === null) return '';
  const values = {entry, amount: amountText(cents), account: of, teller: desk.place.teller, drawer};
  if (isTransfer(kind)) return say(`correct.reads.${kind}`, values);
  return say(drawer === desk.place.teller ? `correct.reads.${kind}.same` : `correct.reads.${kind}`, values);
}

async function make(desk, {given}) {
  const correct = form({
    fields: [
      field({name: 'entry', label: say('correct.entry'), kind: 'number', value: given.get('entry') ?? ''}),
      account({value: given.get('account') ?? ''}),
      kindField(given),
      amount({value: given.get('amount') ?? ''}),
      account({name: 'other', label: say('correct.other'), value: given.get('other') ?? ''}),
      field({
        name: 'drawer', label: say('correct.drawer'), hint: say('correct.drawer.hint'), kind: 'number', value: given.get('drawer') ?? '',
      }),
      release(),
    ],
    button: say('correct.button'),
    isBeside: true,
    clear: ['entry', 'account', 'kind', 'amount', 'other', 'drawer', 'release'],
    reads: values => sentence(desk, values),
    async send({entry, account: of, kind, amount: cents, other, drawer, release: by}) {
      if (other === of) return {faults: {other: say('fault.sameAccount')}};
      const {branch, teller} = desk.place;
      const body = {account: of, branch, delta: wayOf(kind) === 'out' ? -cents : cents, entry, other: other ?? 0, teller};
      const state = lacksDrawer(desk, 'correct') ?? await desk.act('correct', body, by);
      const move = state === 'done' ? moveAfter(body, drawer) : null;
      if (move) await offerMove(desk, move);
      return state;
    },
  });
  const {kind, other, drawer} = correct.fields;
  const fit = () => {
    const chosen = kind.read().value;
    other.row.hidden = !isTransfer(chosen);
    drawer.row.hidden = isTransfer(chosen);
  };
  correct.element.addEventListener('change', fit);
  fit();
  return {elements: [h('p', {class: 'lead'}, say('correct.lead')), correct.element], focus: correct.focus};
}

/** @type {DeskScreen} */
export default {id: 'correct', key: 'e', needsDrawer: true, asks: ['correct'], make};
