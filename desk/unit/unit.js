// Tests of the modules that draw nothing, and of the panel, in the browser that the page runs in.
import {failed, count} from './check.js';

// Each has tests alone: what they stand on is in check.js.
const MODULES = 'allowed amounts cash customers money office place reports requests screens sums texts words'.split(' ');

/** A test that waits for ever has failed. */
const late = () => new Promise((_, reject) => setTimeout(() => reject(new Error('no end')), 15000));

for (const name of MODULES) {
  for (const test of Object.values(await import(`./${name}.js`))) {
    try {
      await Promise.race([test(), late()]);
    } catch (error) {
      failed.push(`${test.name}: ${error}`);
    }
  }
}
document.getElementById('result').textContent = failed.length === 0 ? `${count()} hold` : failed.join('\n');
document.title = failed.length === 0 ? 'passed' : 'failed';
