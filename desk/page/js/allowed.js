// What is known of what a user may do. The menu offers each screen of which nothing says that they may not use it.

/** The rules that deny a question, or a command of the policy, to a user whatever numbers it names. */
const WHATEVER = {'accounts': [2, 3], 'policy': [17], 'define-set': [18]};

/**
 * What a reply says anew: true, false, or null for nothing. `allowed` is what was known by name. A refusal that another
 * number could mend says nothing of a user.
 * @returns {boolean | null}
 */
export function learned(/** @type {Record<string, boolean>} */ allowed, /** @type {string} */ name, state, rule) {
  if (state === 'done') return allowed[name] === true ? null : true;
  const isRefused = state === 'refused' && (WHATEVER[name] ?? []).includes(rule);
  return isRefused && allowed[name] === undefined ? false : null;
}

/** What was kept of a user. An earlier page kept refusals, too, that another number could mend. */
export const keptOf = (/** @type {Record<string, boolean>} */ kept) => Object.fromEntries(
  Object.entries(kept).filter(([name, may]) => may || name in WHATEVER));

/** Whether a user may do it, as far as is known. Who is shown the policy is an officer, and no officer has an authorization. */
const mayDo = (/** @type {string} */ name, /** @type {Record<string, boolean>} */ allowed) => (
  allowed[name] ?? allowed.policy !== true);

/** Whether the menu offers a screen to whoever works at a desk. Without a drawer nobody posts. */
export function isOffered(
  /** @type {DeskScreen} */ {asks, needsDrawer}, /** @type {Pick<Desk, 'allowed' | 'place'>} */ {allowed, place},
) {
  const lacksDrawer = needsDrawer === true && place.branch !== null && place.teller === null;
  return !lacksDrawer && (asks.length === 0 || asks.some(name => mayDo(name, allowed)));
}

/** Where work begins: the first screen that is offered and asks the bank for something, or the first. */
export const firstOffered = (
  /** @type {DeskScreen[]} */ screens, /** @type {Pick<Desk, 'allowed' | 'place'>} */ desk,
) => screens.find(screen => screen.asks.length > 0 && isOffered(screen, desk)) ?? screens[0];
