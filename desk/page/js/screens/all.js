import post from './post.js';
import transfer from './transfer.js';
import balance from './balance.js';
import statement from './statement.js';
import correct from './correct.js';
import drawer from './drawer.js';
import moveCash from './move-cash.js';
import newAccount from './new-account.js';
import accounts from './accounts.js';
import release from './release.js';
import closeDay from './close-day.js';
import journal from './journal.js';
import policy from './policy.js';
import session from './session.js';
import find from './find.js';

/**
 * The screens in the order of the menu.
 * @type {DeskScreen[]}
 */
export const SCREENS = [
  post, transfer, balance, statement, correct, drawer, moveCash, newAccount, accounts, release, closeDay, journal, policy, session, find,
];
