// A statement does not say how many entries the account has, so its last turn is looked for.

/** How many lines a question for a part of a statement asks for. */
export const LINES_PER_PAGE = 200;

/**
 * The last turn of an account: `linesFrom(turn)` returns the lines from that turn on, at most a page of them. A page that is
 * not full ends the search. It steps on by eight times as many turns each time, and then halves what lies between: some 15
 * questions for 100,000 entries, and one where the last turn was found lately and is handed in as `known`.
 */
export async function lastTurn(linesFrom, known = 0, page = LINES_PER_PAGE) {
  let low = known; // the last turn that is known to be there, or 0
  let high = Infinity; // the first that is known not to be there
  let start = low + 1;
  let step = page;
  while (low + 1 < high) {
    const count = (await linesFrom(start)).length;
    if (count > 0 && count < page) return start + count - 1;
    if (count === 0) high = start;
    else low = start + page - 1;
    if (high === Infinity) {
      start = low + step;
      step *= 8;
    } else {
      start = high - low <= page + 1 ? low + 1 : low + Math.ceil((high - low) / 2);
    }
  }
  return low;
}
