// What is known of a drawer's cash: the bank's own figure where it shows that, or else what the journal of a shift says.

/**
 * @typedef {{isOn: boolean, cents: number | null, isOfBank: boolean}} Known Whether a drawer is on, and what it should hold, by the bank
 * or by what was done at this machine.
 */

/**
 * What is known of a drawer. A colleague at another machine may have moved cash to it, so the bank's figure is taken first.
 * @returns {Promise<Known>}
 */
export async function knownOf(/** @type {Desk} */ desk, /** @type {number | null} */ teller) {
  const found = teller === null ? undefined : (await desk.quietProof(desk.place.branch))?.tellers.find(one => one.teller === teller);
  if (found) return {isOn: found.holder !== 0, cents: found.holder === 0 ? null : found.cash, isOfBank: true};
  const rows = await desk.drawerRows();
  return {isOn: cashOver(rows, teller).isOn, cents: expectedCash(rows, teller), isOfBank: false};
}

/**
 * How much came to the drawer of whoever works here by others at other machines, as the bank has it: {teller, cash, difference}, or
 * null where nothing did or where that can't be said.
 */
export async function cashFromElsewhere(/** @type {Desk} */ desk) {
  const {teller} = desk.place;
  if (teller === null || desk.allowed.proof !== true || await desk.waits()) return null;
  const before = await desk.drawerRows();
  const {isOn, cents, isOfBank} = await knownOf(desk, teller);
  const rows = await desk.drawerRows();
  const own = expectedCash(rows, teller);
  const isSteady = rows.length === before.length && !await desk.waits(); // nothing was done here meanwhile
  if (!isSteady || !isOn || !isOfBank || own === null || own === cents) return null;
  return {teller, cash: cents, difference: cents - own};
}

/**
 * Points {at, cash}, what was done to the drawer in order; whether the drawer is on; its difference where it was put off.
 * Where nothing has shown yet what is in it, `isKnown` is false, and cash is what came and went since. `begins` says whether
 * the drawer was put on here, so that the last point is what it should hold.
 */
export function cashOver(rows, teller) {
  const shift = {points: [], difference: null, isKnown: false, isOn: false, begins: false};
  let cash = 0;
  for (const row of rows) {
    if (row.state !== 'done' || row.text) continue;
    const now = cashAfter(row, teller, cash, shift);
    if (now === null) continue;
    cash = now;
    shift.points.push({at: row.answered, cash});
  }
  return shift;
}

/** What the drawer should hold before it is counted, or null where the journal can't say. */
export function expectedCash(rows, teller) {
  const {points, isOn, begins} = cashOver(rows, teller);
  return isOn && begins ? points.at(-1).cash : null;
}

/** The cash after a row, or null where the row does not touch the drawer. */
function cashAfter(row, teller, cash, shift) {
  const [body, reply] = [JSON.parse(row.body), JSON.parse(row.reply)];
  switch (row.name) {
    case 'post': return body.teller === teller ? cash + body.delta : null;
    case 'correct': return body.teller === teller && body.other === 0 ? cash - body.delta : null;
    case 'drawer-on':
      if (body.teller !== teller) return null;
      Object.assign(shift, {points: [], difference: null, isKnown: true, isOn: true, begins: true});
      return reply.cash;
    case 'drawer-off':
      if (body.teller !== teller) return null;
      settle(shift, body.counted - reply.difference - cash);
      Object.assign(shift, {difference: reply.difference, isOn: false});
      return body.counted;
    case 'move-cash': {
      if (body.source !== teller && body.target !== teller) return null;
      const gives = body.source === teller;
      const now = gives ? reply.source : reply.target;
      settle(shift, now - cash + (gives ? body.amount : -body.amount));
      return now;
    }
    default: return null;
  }
}

/** Once it shows what is in the drawer, what came before stands on that, too. */
function settle(shift, beginning) {
  if (!shift.isKnown) shift.points = shift.points.map(point => ({...point, cash: point.cash + beginning}));
  shift.isKnown = true;
}
