import {form} from '../form.js';
import {account, amount, purpose, release, amountText} from '../fields.js';
import {inParts, MOST_AT_ONCE} from '../parts.js';
import {actInParts} from '../sums.js';
import {notedPurpose} from '../purposes.js';
import {wayField} from '../ways.js';
import {showAmount} from '../amounts.js';
import {say} from '../words.js';

/** Where no drawer is named, that has to come first: another screen, and the state that a form gets. */
export function lacksDrawer(/** @type {Desk} */ desk, /** @type {string} */ screen) {
  if (desk.place.branch !== null && desk.place.teller !== null) return null;
  location.hash = `session?lacks=drawer&then=${screen}`;
  return 'lacks drawer';
}

/** What the button would do: it says the way and the amount, once they are there. */
function buttonOf({way, amount: cents}) {
  if (way === null) return {text: say('post.choose'), kind: ''};
  return {text: cents === null ? say(`post.${way}`) : say(`post.${way}.amount`, {amount: showAmount(cents)}), kind: way};
}

function sentence({way, account: of, amount: cents}) {
  if (of === null && cents === null) return '';
  return inParts(cents, say(`post.reads.${way ?? 'none'}`, {account: of, amount: amountText(cents)}));
}

async function make(desk, {given}) {
  const post = form({
    fields: [wayField(), account({value: given.get('account') ?? ''}), amount({most: MOST_AT_ONCE}), purpose(), release()],
    button: buttonOf,
    clear: ['way', 'account', 'amount', 'purpose', 'release'],
    reads: sentence,
    async send({way, account: of, amount: cents, purpose: text, release: by}) {
      const {branch, teller} = desk.place;
      const body = {account: of, branch, delta: way === 'out' ? -cents : cents, teller};
      return lacksDrawer(desk, 'post') ?? actInParts(desk, 'post', body, by, await notedPurpose(desk, text));
    },
  });
  return {elements: post.element, focus: () => post.fields.account.input.focus()};
}

/** @type {DeskScreen} */
export default {id: 'post', key: 'p', needsDrawer: true, asks: ['post'], make};
