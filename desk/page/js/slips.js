// A slip is the session's number times 1,000 plus a count. No two sessions of a user share a number, so two machines never
// take the same slip, and a browser that lost its store begins afresh with the session that it opens.

/** How many writes a session has slips for; the count runs from 1. */
export const SLIPS_PER_SESSION = 999;

/** The last session whose slips the bank can read. */
const LAST_SESSION = 999998;

/** The slip of a session's next write, of which `used` were taken, or null where there is none. */
export function nextSlip(session, used) {
  if (session < 1 || session > LAST_SESSION || used >= SLIPS_PER_SESSION) return null;
  return session * 1000 + used + 1;
}
