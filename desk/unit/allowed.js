// What the menu offers, by what is known of a user.
import {firstOffered, isOffered, keptOf, learned} from '../js/allowed.js';
import {SCREENS} from '../js/screens/all.js';
import {same} from './check.js';

/** Only a refusal that no other number could mend says what a user may not do. */
export function lessons() {
  for (const [name, rule, found] of [
    ['post', 2, null], ['post', 3, null], ['proof', 3, null], ['accounts', 2, false], ['accounts', 3, false],
    ['accounts', 4, null], ['policy', 17, false], ['define-set', 18, false], ['define-set', 21, null],
    ['grant', 18, null], ['enrol', 17, null],
  ]) same(learned({}, name, 'refused', rule), found, `${name} refused by rule ${rule}`);
  same([learned({}, 'post', 'done'), learned({post: true}, 'post', 'done')], [true, null], 'done');
  same(learned({accounts: false}, 'accounts', 'done'), true, 'done after it was refused');
  same([learned({accounts: true}, 'accounts', 'refused', 3), learned({}, 'accounts', 'again', 3)], [null, null],
    'it was allowed before; no reply');
  same(keptOf({post: false, proof: true, accounts: false}), {proof: true, accounts: false}, 'what a page before kept');
}

/** Which screens the menu lacks, and where work begins. */
function menuOf(allowed, branch = 1, teller = 11) {
  const desk = {allowed, place: {branch, teller}};
  return [SCREENS.filter(it => !isOffered(it, desk)).map(({id}) => id).join(' '), firstOffered(SCREENS, desk).id];
}

export function offers() {
  same(menuOf({}), ['', 'post'], 'nothing is known');
  same(menuOf({}, 1, null), ['post transfer correct', 'balance'], 'without a drawer');
  same(menuOf({}, null, null), ['', 'post'], 'not signed in');
  same(menuOf({accounts: false, policy: false}), ['accounts', 'post'], 'no officer');
  same(menuOf({'policy': false, 'define-set': false}), ['policy', 'post'], 'neither officer nor certifier');
  const ofOperations = 'post transfer balance statement correct drawer cash new-account accounts release day';
  same(menuOf({policy: true}), [ofOperations, 'policy'], 'an officer');
  same(menuOf({'policy': true, 'define-set': false}), [ofOperations, 'policy'], 'an officer, and no certifier');
  same(menuOf({policy: true, post: true})[1], 'post', 'a badge that was an officer\'s');
}
