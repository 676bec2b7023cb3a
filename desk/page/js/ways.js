// Which way money goes. None is chosen until the teller chooses one, by its letter.
import {field} from './fields.js';
import {say} from './words.js';

/** The choice between money that comes in and money that is paid out. */
export function wayField(more = {}) {
  return field({
    name: 'way', label: say('way.label'), kind: 'choice', fault: say('way.fault', {in: say('way.in.letter'), out: say('way.out.letter')}),
    options: [['in', say('way.in'), 'in', say('way.in.letter')], ['out', say('way.out'), 'out', say('way.out.letter')]], ...more,
  });
}
