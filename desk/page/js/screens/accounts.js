import {h, table, button, exactToggle, refocus} from '../dom.js';
import {form} from '../form.js';
import {field} from '../fields.js';
import {showAmount} from '../amounts.js';
import {now, showTime} from '../dates.js';
import {readAccounts} from '../reports.js';
import {say} from '../words.js';

const PER_PAGE = 100;
const columns = () => [
  [say('column.account'), 'n'], [say('column.home'), 'n'], [say('column.balance'), 'n'], [say('screen.statement'), 'screen'],
];

function statementLink(account) {
  const attributes = {href: `#statement?account=${account}`, 'aria-label': say('accounts.statement', {account})};
  return h('a', attributes, say('screen.statement'));
}

async function make(desk) {
  const paper = h('div', {class: 'results'});

  async function more(after, before) {
    const text = say('asked.accounts', {account: after + 1});
    const page = await desk.ask('accounts', {after, count: PER_PAGE}, text, reply => readAccounts(reply.text));
    if (!page) return 'refused';
    const rows = [...before, ...page];
    const next = page.length === PER_PAGE ? button(say('accounts.next', {count: PER_PAGE}), () => more(page.at(-1).account, rows))
      : h('span', {role: 'status'}, say('accounts.all', {count: rows.length}));
    const cells = rows.map(({account, home, balance}) => [account, home, showAmount(balance), statementLink(account)]);
    const readable = table(say('accounts.caption', {time: showTime(now())}), columns(), cells);
    const exact = h('pre', {tabindex: 0, 'aria-label': say('exact')}, rows.map(row => `${row.line}\n`).join(''));
    paper.replaceChildren(
      h('div', {class: 'tools'}, button(say('print'), () => print()), exactToggle(readable, exact), next),
      h('div', {class: 'paper'}, readable, exact));
    refocus(paper.querySelector('button'));
    return 'shown';
  }

  const ask = form({
    fields: [field({name: 'first', label: say('accounts.first'), kind: 'number', value: '1'})],
    button: say('show'),
    send: ({first}) => more(first - 1, []),
  });
  return {elements: [h('div', {class: 'row'}, ask.element), paper], focus: ask.focus};
}

/** @type {DeskScreen} */
export default {id: 'accounts', key: 'a', isWide: true, asks: ['accounts'], make};
