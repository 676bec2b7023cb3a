import {form} from '../form.js';
import {account, amount, purpose, release, amountText} from '../fields.js';
import {inParts, MOST_AT_ONCE} from '../parts.js';
import {notedPurpose} from '../purposes.js';
import {actInParts} from '../sums.js';
import {lacksDrawer} from './post.js';
import {say} from '../words.js';

async function make(desk, {given}) {
  const transfer = form({
    fields: [
      account({name: 'source', label: say('transfer.from'), value: given.get('source') ?? ''}), account({name: 'target', label: say('transfer.to')}),
      amount({most: MOST_AT_ONCE}), purpose(), release(),
    ],
    button: say('transfer.button'),
    clear: ['source', 'target', 'amount', 'purpose', 'release'],
    reads: ({source, target, amount: cents}) => (source === null && cents === null ? ''
      : inParts(cents, say('transfer.reads', {amount: amountText(cents), source, target}))),
    async send({source, target, amount: cents, purpose: text, release: by}) {
      if (source === target) return {faults: {target: say('fault.sameAccount')}};
      const {branch, teller} = desk.place;
      const body = {amount: cents, branch, source, target, teller};
      return lacksDrawer(desk, 'transfer') ?? actInParts(desk, 'transfer', body, by, await notedPurpose(desk, text));
    },
  });
  return {elements: transfer.element, focus: transfer.focus};
}

/** @type {DeskScreen} */
export default {id: 'transfer', key: 't', needsDrawer: true, asks: ['transfer'], make};
