// The office's part of the page: what is asked of colleagues, and names.
import {makeOffice} from '../js/office.js';
import {askText, correctionOf, requestOf, wishOf} from '../js/asks.js';
import {same, reply, none} from './check.js';

export function wishes() {
  for (const [name, rule, wish] of [
    ['post', 4, 'release'], ['close-day', 4, null], ['post', 11, null], ['correct', 9, 'correct'], ['release', 9, null], [],
  ]) same(wishOf(name, rule), wish ?? null, `${name} and rule ${rule}`);
  same(requestOf({procedure: 'post', account: 101, delta: 5}), {name: 'post', body: {account: 101, delta: 5}}, 'what is sent');
  const operation = {entry: 3, account: 101, other: 0, delta: -2500, teller: 11};
  same(correctionOf(operation), 'correct?entry=3&account=101&kind=out&amount=25.00&drawer=11', 'a withdrawal to correct');
  const transfer = correctionOf({...operation, other: 102, delta: 2500});
  const part = delta => ({procedure: 'post', account: 101, branch: 1, delta, teller: 11});
  same(askText({operations: [part(999999), part(500001)]}), 'Deposit of 15,000.00, account 101, drawer 11, in 2 entries', 'a sum, with its total');
  same(askText({operations: [part(5)]}), 'Deposit of 0.05, account 101, drawer 11', 'one entry');
  same(transfer, 'correct?entry=3&account=101&kind=in-transfer&amount=25.00&drawer=11&other=102', 'a transfer to correct');
}

export async function officeAnswers() {
  const asked = [];
  let [answer, time] = [reply(200, {accounts: {101: ['Ann']}, users: {}}), 0];
  const office = makeOffice('tess', async request => {
    asked.push(request);
    return answer;
  }, () => time);
  same([...await office.names([101, 102])], [[101, ['Ann']], [102, []]], 'names');
  same([...await office.names([101])], [[101, ['Ann']]], 'names again');
  same(asked.map(({path, badge, method}) => [path, badge, method]), [['/office/api/names?accounts=101,102', 'tess', 'GET']], 'asked once');
  answer = reply(503, {front: 'no office'});
  time = 400000;
  same([await office.names([101]), await office.asks(), await office.search('ann')], [null, null, null], 'no office');
  same(asked.length, 2, 'an office that is not there is let alone');
  time = 500000;
  answer = none;
  same(await office.asks(), null, 'no reply');
  time = 600000;
  answer = reply(403, {office: 'not yours'});
  same([await office.asks(), (await office.withdraw(3)).status], [null, 403], 'refused, and there');
}
