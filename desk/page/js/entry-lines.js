// The last entries of an account, by branch and number, as the bank shows them to whoever works here.
import {readStatement} from './reports.js';
import {lastTurn, LINES_PER_PAGE} from './last-turn.js';

/** So many turns before the last that is known are read again. */
const BEFORE = 100;

/** The last lines of an account's statement by branch and number; none where the bank does not show it, which is not said. */
export async function entriesByNumber(/** @type {Desk} */ desk, /** @type {number} */ account) {
  let rows = [];
  const linesFrom = async start => {
    const body = {account, count: LINES_PER_PAGE, start};
    const found = await desk.ask('statement', body, null, reply => readStatement(reply.text).rows, () => {}) ?? [];
    if (found.length > 0) rows = found;
    return found;
  };
  await lastTurn(linesFrom, Math.max(0, (desk.lastTurns.get(account) ?? 0) - BEFORE));
  return new Map(rows.map(row => [`${row.branch} ${row.entry}`, row]));
}
