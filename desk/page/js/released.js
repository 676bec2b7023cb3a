/** The operations that can be released, each with the fields that it has beside the branch. */
export const RELEASED = {
  'post': ['teller', 'way', 'account', 'amount'],
  'transfer': ['teller', 'source', 'target', 'amount'],
  'correct': ['teller', 'entry', 'account', 'way', 'amount', 'other'],
  'drawer-on': ['teller', 'cash'],
  'move-cash': ['from', 'to', 'cash'],
};

/** The operation of a release, as the bank takes it, from what was typed. */
export function operationOf(values) {
  const {procedure, branch, teller, entry, way, account, source, target, other, from, to, amount, cash} = values;
  const delta = way === 'out' ? -amount : amount;
  switch (procedure) {
    case 'post': return {account, branch, delta, procedure, teller};
    case 'transfer': return {amount, branch, procedure, source, target, teller};
    case 'correct': return {account, branch, delta, entry, other: other ?? 0, procedure, teller};
    case 'drawer-on': return {branch, cash, procedure, teller};
    default: return {amount: cash, branch, procedure: 'move-cash', source: from, target: to};
  }
}
