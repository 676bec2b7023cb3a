// Screens that are filled in: what they ask of the bank is what was typed and read back.
import newAccount from '../js/screens/new-account.js';
import moveCash from '../js/screens/move-cash.js';
import {same, sent, shown} from './check.js';

/** Types into the fields of a screen, or ticks their choices, and sends the form: what was read back, and each thing that was asked for. */
async function filled(screen, values) {
  const {room, asked} = await shown(screen);
  for (const [name, value] of Object.entries(values)) {
    const choice = room.querySelector(`[data-name="${name}"] input[value="${value}"]`);
    const input = choice ?? room.querySelector(`[data-name="${name}"] input`);
    if (choice) choice.checked = true;
    else input.value = value;
    for (const type of ['input', 'change']) input.dispatchEvent(new Event(type, {bubbles: true}));
  }
  const read = room.querySelector('[data-name="reads"]').textContent;
  await sent(room);
  room.remove();
  return [read, ...asked];
}

export async function newAccounts() {
  for (const [overdraft, floor, least] of [
    ['0.00', 0, '0.00'], ['0.01', -1, '-0.01'], ['500', -50000, '-500.00'], ['9999999.99', -999999999, '-9,999,999.99'],
  ]) {
    const found = await filled(newAccount, {account: '103', branch: '1', overdraft});
    same(found, [`Account 103 at branch 1, down to ${least}`, ['new-account', {account: 103, branch: 1, floor}]], `an overdraft of ${overdraft}`);
  }
}

export async function movedCash() {
  for (const [from, to, text, source, target] of [
    ['0', '11', 'from the vault to drawer 11', 0, 11], ['11', '0', 'from drawer 11 to the vault', 11, 0],
    ['other', '11', 'from drawer 12 to drawer 11', 12, 11], ['11', 'other', 'from drawer 11 to drawer 12', 11, 12],
  ]) {
    const found = await filled(moveCash, {from, to, other: '12', amount: '20', release: '3'});
    same(found, [`20.00 ${text}`, ['move-cash', {amount: 2000, branch: 1, source, target}, 3]], `cash ${text}`);
  }
}
