import {readStatement, readAccounts, readProof, readPolicy, checksOf} from '../js/reports.js';
import {lastTurn} from '../js/last-turn.js';
import {same, throws} from './check.js';

const LINE = '        1         1         1        11         700    25.00         525.00\n';
const PROOF = 'PROOF BRANCH         1 DAY      1\nTELLER        11         600.00         400.00    7\n'
  + 'TELLER        12           0.00          50.00    8\nTELLERS TOTAL             600.00\nBRANCH BALANCE            600.00\n'
  + 'HISTORY TOTAL               0.00\nOPENING BALANCE           600.00\nVAULT CASH                550.00\n'
  + 'DRAWER CASH               450.00\nOPENING CASH             1000.00\nCASH ENTRIES                0.00\n'
  + 'DIFFERENCES                 0.00\n';
const POLICY = 'POLICY LINES         5\nUSER    1 O- Olga                \nCERTIFIER    2 post       \n'
  + 'SET         1 account         1    999999\nRELATION post                2 BY    2\n'
  + 'TRIPLE    7 post                2    999999           0 99999999999\n';

export function reports() {
  const {account, rows} = readStatement(`STATEMENT ACCOUNT       101 FROM         1 LINES     1\n${LINE}`);
  const first = {turn: 1, branch: 1, entry: 1, teller: 11, moment: 700, delta: 2500, balance: 52500, line: 0};
  same([account, rows.length, {...rows[0], line: 0}], [101, 1, first], 'statement');
  throws(() => readStatement(`STATEMENT ACCOUNT       101 FROM         1 LINES     2\n${LINE}`), 'a statement that is cut');
  throws(() => readStatement('<html>\n'), 'no statement');
  const accounts = readAccounts('ACCOUNTS AFTER         0 LINES     2\n      101         1         500.00\n      102         1           0.00\n');
  same(accounts.map(({line: _line, ...rest}) => rest), [{account: 101, home: 1, balance: 50000}, {account: 102, home: 1, balance: 0}], 'accounts');
  const proof = readProof(PROOF);
  same([proof.day, proof.tellers[1], proof.sums['VAULT CASH']], [1, {teller: 12, balance: 0, cash: 5000, holder: 8}, 55000], 'proof');
  same(checksOf(proof).map(([agrees]) => agrees), [true, true, true], 'proof that agrees');
  for (const [name, agree] of [
    ['TELLERS TOTAL', [false, true, true]], ['BRANCH BALANCE', [false, false, true]], ['HISTORY TOTAL', [true, false, true]],
    ['OPENING BALANCE', [true, false, true]], ['VAULT CASH', [true, true, false]], ['DRAWER CASH', [true, true, false]],
    ['OPENING CASH', [true, true, false]], ['CASH ENTRIES', [true, true, false]], ['DIFFERENCES', [true, true, false]],
  ]) {
    for (const cents of [-1, 1, 99, 54999]) {
      const found = checksOf({sums: {...proof.sums, [name]: proof.sums[name] + cents}}).map(([agrees]) => agrees);
      same(found, agree, `a proof whose ${name} differs by ${cents}`);
    }
  }
  const listed = readPolicy(POLICY);
  same(listed.map(row => row.kind), ['user', 'certifier', 'set', 'relation', 'triple'], 'policy');
  same(listed[0].cells, {user: 1, isOfficer: true, isSuspended: false, name: 'Olga'}, 'user');
  for (const [marks, isOfficer, isSuspended] of [['--', false, false], ['-S', false, true], ['OS', true, true]]) {
    const [{cells}] = readPolicy(`POLICY LINES         1\nUSER    2 ${marks} Carl                \n`);
    same(cells, {user: 2, isOfficer, isSuspended, name: 'Carl'}, `a user marked ${marks}`);
  }
  same(listed[4].cells, {user: 7, procedure: 'post', set: 2, limit: 999999, first: 0, last: 99999999999}, 'triple');
}

/** The last turn of an account with `last` entries, and how often was asked. */
async function searched(last, known) {
  let asked = 0;
  const linesFrom = async turn => {
    asked += 1;
    return Array(Math.max(0, Math.min(200, last - turn + 1)));
  };
  return [await lastTurn(linesFrom, known), asked];
}

export async function lastTurns() {
  for (const last of [0, 1, 2, 199, 200, 201, 399, 400, 401, 1000, 1500, 99999, 100000, 999999999]) {
    for (const known of [0, Math.floor(last / 2), Math.max(0, last - 1), last]) {
      const [found, asked] = await searched(last, known);
      same([found, asked <= 36], [last, true], `last turn ${last} from ${known}: ${asked} questions`);
    }
  }
  same((await searched(150, 0))[1], 1, 'questions for 150 entries');
  same((await searched(1010, 1000))[1], 1, 'questions for ten entries more');
  same((await searched(100000, 0))[1] <= 15, true, `questions for 100,000 entries: ${(await searched(100000, 0))[1]}`);
}
