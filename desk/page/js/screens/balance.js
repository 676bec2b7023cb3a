import {form} from '../form.js';
import {account} from '../fields.js';
import {showAmount} from '../amounts.js';
import {say} from '../words.js';
import * as outcome from '../outcome.js';

async function make(desk) {
  const balance = form({
    fields: [account()],
    button: say('show'),
    clear: ['account'],
    async send({account: of}) {
      outcome.clear();
      const reply = await desk.ask('balance', {account: of}, say('asked.balance', {account: of}));
      if (reply) outcome.answered(say('screen.balance'), say('end.balance', {account: of}), showAmount(reply.body.balance));
      return reply ? 'done' : 'refused';
    },
  });
  return {elements: balance.element, focus: balance.focus};
}

/** @type {DeskScreen} */
export default {id: 'balance', key: 'b', asks: ['balance'], make};
