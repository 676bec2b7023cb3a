// A drawer's cash over a shift, as a line of steps.
import {svg} from './dom.js';
import {showAmount} from './amounts.js';
import {showClock} from './dates.js';
import {say} from './words.js';

const [WIDTH, HEIGHT, RIGHT, TOP, BASE] = [640, 180, 620, 15, 150];
/** Of each sign of a label on the left, at the largest size that the sheet gives it. */
const SIGN = 11.5;

/** Round marks for an axis from `low` to `high`, in cents: two to eight of them. */
export function axisMarks(low, high) {
  const span = Math.max(high - low, 300);
  let step = 100;
  for (let at = 0; span / step > 5; at += 1) step *= [2, 2.5, 2][at % 3];
  const marks = [Math.floor(low / step) * step];
  while (marks.at(-1) < high || marks.length < 2) marks.push(marks.at(-1) + step);
  return marks;
}

export function cashChart({points, isKnown}) {
  const cash = points.map(point => point.cash);
  const marks = axisMarks(Math.min(0, ...cash), Math.max(...cash));
  const left = Math.max(90, 16 + Math.ceil(SIGN * Math.max(...marks.map(mark => showAmount(mark).length))));
  const [from, to] = [points[0].at, Math.max(points.at(-1).at, points[0].at + 60000)];
  const x = at => Math.round(left + (at - from) / (to - from) * (RIGHT - left));
  const y = cents => Math.round(BASE - (cents - marks[0]) / (marks.at(-1) - marks[0]) * (BASE - TOP));
  const steps = points.slice(1).map(point => `H${x(point.at)}V${y(point.cash)}`).join('');
  const values = {from: showAmount(cash[0]), began: showClock(from), to: showAmount(cash.at(-1)), ended: showClock(points.at(-1).at)};
  const label = say(isKnown ? 'chart.cash' : 'chart.change', values);
  return svg('svg', {viewBox: `0 0 ${WIDTH} ${HEIGHT}`, role: 'img', 'aria-label': label, class: 'chart'},
    marks.map(mark => [
      svg('line', {x1: left, x2: RIGHT, y1: y(mark), y2: y(mark), class: mark === 0 ? 'zero' : 'rule'}),
      svg('text', {x: left - 8, y: y(mark) + 5, 'text-anchor': 'end'}, showAmount(mark)),
    ]),
    svg('path', {d: `M${x(from)} ${y(cash[0])}${steps}H${RIGHT}`, class: 'cash'}),
    points.map(point => svg('circle', {cx: x(point.at), cy: y(point.cash), r: 3.5, class: 'dot'},
      svg('title', {}, say('chart.point', {time: showClock(point.at), cash: showAmount(point.cash)})))),
    svg('text', {x: left, y: HEIGHT - 8}, showClock(from)),
    svg('text', {x: RIGHT, y: HEIGHT - 8, 'text-anchor': 'end'}, showClock(to)));
}
