import {parseAmount, parseNumber, showAmount, showChange, reportedAmount, countCash} from '../js/amounts.js';
import {DENOMINATIONS} from '../js/settings.js';
import {same, throws} from './check.js';

const SOUND = [['25.00', 2500], ['25', 2500], ['0.01', 1], ['0', 0], ['1,250.00', 125000], [' 7.50 ', 750], ['1,234,567.89', 123456789],
  ['9999999999.99', 999999999999], ['0.07', 7], ['1.10', 110], ['8.29', 829], ['4.35', 435], ['2.01', 201], ['19.99', 1999]];
const WRONG = ['', ' ', '25.000', '25.5', '25.', '.50', '25,00', '1,25.00', '12,34', '1,2345', ',250', '1 250', '-25.00', '+25', '025.00',
  '25.00.00', '1e2', '0x10', '25,000,0', 'NaN', '٢٥', '25.00€', '99999999999.00', '<b>', '1.250,00'];

function typed() {
  for (const [text, cents] of SOUND) same(parseAmount(text).cents, cents, `amount ${text}`);
  for (const text of WRONG) {
    const {cents, fault} = parseAmount(text);
    same([cents, typeof fault], [undefined, 'string'], `no amount ${text}`);
  }
  same(parseAmount('0.00', {least: 1}).fault, 'At least 0.01.', 'least');
  same(parseAmount('10,000.00', {most: 999999}).fault, 'At most 9,999.99.', 'most');
  for (let cents = 0; cents < 20000; cents += 1) {
    if (parseAmount(showAmount(cents)).cents !== cents) same(parseAmount(showAmount(cents)).cents, cents, 'there and back');
  }
}

export function amounts() {
  typed();
  const shown = [[0, '0.00'], [5, '0.05'], [-5, '-0.05'], [125000, '1,250.00'], [99999999, '999,999.99'], [-100000000, '-1,000,000.00']];
  for (const [cents, text] of shown) same(showAmount(cents), text, 'shown');
  same([showChange(5), showChange(0), showChange(-5)], ['+0.05', '0.00', '-0.05'], 'changes');
  same([reportedAmount('   -0.05'), reportedAmount('500.00'), reportedAmount('0.00')], [-5, 50000, 0], 'reported');
  throws(() => reportedAmount('5.0'), 'reported wrongly');
  const numbers = [parseNumber('101').number, parseNumber('0').fault, parseNumber('1x').fault, parseNumber('1000000000').fault];
  same(numbers, [101, 'At least 1.', 'Only digits.', 'At most 999999999.'], 'numbers');
  same(countCash(DENOMINATIONS.map((_, at) => (at === 1 ? '2' : ''))).cents, 2 * DENOMINATIONS[1], 'counted');
  same(countCash(['3', '', '7'], [5, 2, 1]).cents, 22, 'counted in another currency');
  same(countCash(['x'], [500]).at, 0, 'counted wrongly');
}
