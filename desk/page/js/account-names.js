// What is known of the accounts that are typed into a form, above its button: owners and who may act, a warning, and what is on those
// that belong to whoever stands at the counter.
import {accountCard, shownName} from './account-card.js';
import {h} from './dom.js';
import {say} from './words.js';

const FIELDS = ['account', 'source', 'target', 'other'].map(name => `[data-name="${name}"] input`).join();
/** The fields whose account is the customer's at this counter; that of another is nobody's here. */
const OWN = ['account', 'source'].map(name => `[data-name="${name}"] input`).join();
/** So many milliseconds after the last key names are asked for. */
const PAUSE = 150;

const numbersIn = inputs => [...inputs].filter(one => one.offsetParent !== null)
  .map(one => one.value.trim()).filter(text => /^[1-9][0-9]{0,8}$/.test(text)).map(Number);

/** The accounts that stand in a form. */
const accountsIn = form => numbersIn(form.querySelectorAll(FIELDS));

/** Those whose balance is shown: the customer's own, in a form that moves an amount. */
const ownIn = form => (form.querySelector('[data-name="amount"]') ? numbersIn(form.querySelectorAll(OWN)) : []);

/** The lines of a form for accounts, which are made where there are none. */
function linesOf(form) {
  const there = form.querySelector('.names');
  if (there) return there;
  const lines = h('div', {class: 'names', 'data-name': 'names', 'aria-live': 'polite'});
  form.querySelector('button[type="submit"]').before(lines);
  return lines;
}

/** One account with its names, as a sentence. */
export const namesText = (account, names) => say(names.length > 0 ? 'office.names' : 'office.unknown', {
  account, names: names.map(shownName).join(', '),
});

/** The names of those who own an account, if an office says so. */
export async function ownersOf(/** @type {Desk} */ desk, /** @type {number} */ account) {
  return ((await desk.office?.names([account]))?.get(account) ?? []).map(shownName);
}

/** The balances of accounts as they were when their field was left; what is typed anew, or sent, is asked for again. */
function makeBalances(/** @type {Desk} */ desk, changed) {
  const known = new Map();
  return {
    forget: () => known.clear(),
    of: account => known.get(account) ?? null,
    async ask(/** @type {number[]} */ accounts) {
      for (const account of accounts.filter(one => !known.has(one))) {
        known.set(account, null);
        known.set(account, await desk.balanceOf(account));
        changed();
      }
    },
  };
}

/**
 * Shows in each form below `root` what is known of the accounts that are typed there, and once a field is left what is on those of the
 * customer.
 */
export function watchNames(root, /** @type {Desk} */ desk) {
  let timer = null;
  async function show() {
    for (const form of root.querySelectorAll('form')) {
      const accounts = accountsIn(form);
      if (accounts.length === 0 && !form.querySelector('.names')) continue;
      const facts = accounts.length > 0 ? await desk.office.accounts(accounts) : new Map();
      if (!form.isConnected || String(accountsIn(form)) !== String(accounts)) continue;
      const lines = linesOf(form);
      const own = ownIn(form);
      const cards = accounts.map(one => accountCard(one, facts?.get(one), own.includes(one) ? balances.of(one) : null));
      if (lines.textContent !== cards.map(one => one.textContent).join('')) lines.replaceChildren(...cards);
    }
  }
  const soon = () => {
    clearTimeout(timer);
    timer = setTimeout(show, PAUSE);
  };
  const balances = makeBalances(desk, soon);
  const left = () => {
    balances.ask([...root.querySelectorAll('form')].flatMap(ownIn));
    soon();
  };
  root.addEventListener('input', event => {
    if (event.target.closest(OWN)) balances.forget();
    soon();
  });
  root.addEventListener('submit', () => balances.forget());
  for (const event of ['focusin', 'change']) root.addEventListener(event, left);
}
