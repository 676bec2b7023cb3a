// The bank's reports are lines of fixed widths (docs/REPORTS.md). They are read strictly: what does not fit is an error.
import {reportedAmount} from './amounts.js';

function linesOf(text) {
  if (!text.endsWith('\n')) throw new Error('the report is cut');
  return text.slice(0, -1).split('\n');
}

function numberAt(line, from, width) {
  const piece = line.slice(from, from + width);
  if (piece.length !== width || !/^ *[0-9]+$/.test(piece)) throw new Error(`no number: ${line}`);
  return Number(piece);
}

/** The head of a report, whose last number has to be how many lines follow. */
function headOf(lines, pattern) {
  const head = pattern.exec(lines[0]);
  if (!head || Number(head.at(-1)) !== lines.length - 1) throw new Error('the report has not the lines that it names');
  return head;
}

export function readStatement(text) {
  const lines = linesOf(text);
  const head = headOf(lines, /^STATEMENT ACCOUNT +([0-9]+) FROM +[0-9]+ LINES +([0-9]+)$/);
  const rows = lines.slice(1).map(line => ({
    turn: numberAt(line, 0, 9), branch: numberAt(line, 10, 9), entry: numberAt(line, 20, 9), teller: numberAt(line, 30, 9),
    moment: numberAt(line, 40, 11), delta: reportedAmount(line.slice(52, 60)), balance: reportedAmount(line.slice(61, 75)), line,
  }));
  return {account: Number(head[1]), rows};
}

export function readAccounts(text) {
  const lines = linesOf(text);
  headOf(lines, /^ACCOUNTS AFTER +[0-9]+ LINES +([0-9]+)$/);
  return lines.slice(1).map(line => ({
    account: numberAt(line, 0, 9), home: numberAt(line, 10, 9), balance: reportedAmount(line.slice(20, 34)), line,
  }));
}

export function readProof(text) {
  const [first, ...lines] = linesOf(text);
  const head = /^PROOF BRANCH +([0-9]+) DAY +([0-9]+)$/.exec(first);
  if (!head) throw new Error('no proof');
  const tellers = [];
  const sums = {};
  for (const line of lines) {
    if (/^TELLER +[0-9]/.test(line)) {
      const [balance, cash] = [reportedAmount(line.slice(17, 31)), reportedAmount(line.slice(32, 46))];
      tellers.push({teller: numberAt(line, 7, 9), balance, cash, holder: numberAt(line, 47, 4)});
    } else {
      sums[line.slice(0, 18).trim()] = reportedAmount(line.slice(18));
    }
  }
  return {branch: Number(head[1]), day: Number(head[2]), tellers, sums};
}

/**
 * What has to agree in a proof, as [whether it does, the key of what].
 * @returns {[boolean, string][]}
 */
export function checksOf({sums}) {
  const cash = sums['OPENING CASH'] + sums['CASH ENTRIES'] + sums['DIFFERENCES'];
  return [
    [sums['TELLERS TOTAL'] === sums['BRANCH BALANCE'], 'check.tellers'],
    [sums['OPENING BALANCE'] + sums['HISTORY TOTAL'] === sums['BRANCH BALANCE'], 'check.history'],
    [sums['VAULT CASH'] + sums['DRAWER CASH'] === cash, 'check.cash'],
  ];
}

/** The listing of the policy as rows {kind, cells}. */
export function readPolicy(text) {
  const lines = linesOf(text);
  headOf(lines, /^POLICY LINES +([0-9]+)$/);
  return lines.slice(1).map(line => (line.startsWith('USER ') ? userOf(line) : ruleOf(line)));
}

function userOf(line) {
  const cells = {user: numberAt(line, 5, 4), isOfficer: line[10] === 'O', isSuspended: line[11] === 'S', name: line.slice(13).trimEnd()};
  return {kind: 'user', cells};
}

function ruleOf(line) {
  const [kind, ...pieces] = line.trim().split(/ +/);
  const numbers = pieces.map(Number);
  switch (kind) {
    case 'CERTIFIER': return {kind: 'certifier', cells: {user: numbers[0], procedure: pieces[1]}};
    case 'SET': return {kind: 'set', cells: {set: numbers[0], items: pieces[1], low: numbers[2], high: numbers[3]}};
    case 'RELATION': return {kind: 'relation', cells: {procedure: pieces[0], set: numbers[1], by: numbers[3]}};
    case 'TRIPLE': {
      const [user, , set, limit, first, last] = numbers;
      return {kind: 'triple', cells: {user, procedure: pieces[1], set, limit, first, last}};
    }
    default: throw new Error(`an unknown line: ${line}`);
  }
}
