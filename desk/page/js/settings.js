// What a branch sets for itself. branch/install brings a change to the front.

/** The bank's name, as receipts have it. */
export const BANK = 'Savings Office';

/**
 * The language of the page: `browser` for that of each browser, or `en`, `de`, `es`, `fr`, with a country where it matters: `de-CH`.
 * @type {string}
 */
export const LANGUAGE = 'browser';

/** The currency, by its name and how many digits stand after its decimal mark. Amounts are whole in its smallest unit. */
export const CURRENCY = {name: 'EUR', digits: 2};

/** Its notes and coins, in the smallest unit, from the largest. */
export const DENOMINATIONS = [50000, 20000, 10000, 5000, 2000, 1000, 500, 200, 100, 50, 20, 10, 5, 2, 1];

/**
 * What receipts are printed on: `roll` for a printer of 72 mm, or `A5`.
 * @type {string}
 */
export const PAPER = 'roll';

/** From this difference on, in the smallest unit, a count takes a reason and a colleague's user number. */
export const DIFFERENCE_BOUND = 1000;

/** How many minutes without a key or a click lock the page. */
export const LOCK_MINUTES = 10;

/** How many days before a certificate ends the page says so; from the second number on more plainly. */
export const CERTIFICATE_DAYS = [30, 7];

/** By how many seconds a machine's clock may differ from the front's before the page says so. */
export const CLOCK_SECONDS = 60;

/** For how many days a browser keeps its journal. A request that waits stays, however old it is. */
export const JOURNAL_DAYS = 30;
