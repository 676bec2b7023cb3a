// Names of users, if somebody who may see the listing of the policy has looked at it on this machine.
import {say} from './words.js';

/** @type {Map<number, string>} */
let names = new Map();

/** Takes what is known: pairs of number and name. */
export function setNames(/** @type {[number, string][]} */ pairs) {
  names = new Map(pairs);
}

/** A user by number, and by name where it is known. */
export function nameOf(/** @type {number} */ user) {
  const name = names.get(user);
  return name ? say('user.named', {user, name}) : String(user);
}
