import {h, table, button} from '../dom.js';
import {form} from '../form.js';
import {field} from '../fields.js';
import {inOneLine, shownDate} from '../account-card.js';
import {showAmount} from '../amounts.js';
import {say} from '../words.js';

const COLUMNS = [
  ['find.name', 'note'], ['customer.birth', ''], ['customer.address', 'note'], ['account', 'n'], ['find.may', ''], ['column.balance', 'n'],
  ['screen.post', ''], ['screen.transfer', ''], ['screen.statement', ''],
];
const linkTo = (address, screen) => h('a', {href: `#${address}`}, say(`screen.${screen}`));

/** A holder's name, with what a teller has to know of them. */
function nameCell({name, warning, proposer}) {
  const warned = warning === '' ? null : h('p', {class: 'warning'}, warning);
  return [h('span', {}, proposer === '' ? name : say('customer.unaccepted', {name})), warned];
}

/**
 * The rows of a holder, one for each account that the user may see. The balances are asked of the bank at once, or by a button, as
 * each is a question of its own.
 */
function rowsOf(/** @type {Desk} */ desk, holder, isAtOnce) {
  const {born, address, accounts} = holder;
  const balances = accounts.map(() => h('span', {'data-name': 'balance'}));
  async function show() {
    for (const [at, {account}] of accounts.entries()) {
      const balance = await desk.balanceOf(account);
      balances[at].textContent = balance === null ? say('find.hidden') : showAmount(balance);
    }
  }
  if (isAtOnce) show();
  else if (accounts.length > 0) balances[0].append(button(say('find.balances'), show, {class: 'line', 'aria-label': say('find.balances.of', holder)}));
  return accounts.map(({account, may}, at) => [
    ...at === 0 ? [nameCell(holder), shownDate(born), inOneLine(address)] : ['', '', ''], account, say(`find.${may}`), balances[at],
    linkTo(`post?account=${account}`, 'post'), linkTo(`transfer?source=${account}`, 'transfer'), linkTo(`statement?account=${account}`, 'statement'),
  ]);
}

/** The holders who were found, each with the accounts that the user may see. */
function found(/** @type {Desk} */ desk, holders, isAtOnce) {
  const columns = COLUMNS.map(([key, kind]) => [say(key), kind]);
  const rows = holders.flatMap(holder => rowsOf(desk, holder, isAtOnce));
  if (rows.length === 0) return h('p', {}, say('find.none'));
  return h('div', {class: 'paper'}, table(say('screen.find'), columns, rows, {class: 'found'}));
}

async function make(/** @type {Desk} */ desk, {given}) {
  const results = h('div', {class: 'results', role: 'status'});
  const show = (holders, isAtOnce) => {
    results.replaceChildren(holders === null ? h('p', {}, say('office.absent')) : found(desk, holders, isAtOnce));
  };
  const ask = form({
    fields: [field({name: 'name', label: say('find.name'), kind: 'text', pattern: /\S\S|[\u3000-\uffff]/, fault: say('find.fault')})],
    button: say('find.button'),
    async send({name}) {
      show(await desk.office?.search(name.trim()) ?? null, false);
      return 'done';
    },
  });
  const account = given.get('account');
  if (account !== null) show(await desk.office?.customersOf(Number(account)) ?? null, true);
  return {elements: [ask.element, results], focus: ask.focus};
}

/** @type {DeskScreen} */
export default {id: 'find', key: 'f', isWide: true, asks: [], make};
