"""What is measured of a screen as it is drawn: contrast, names, order, sizes. Each script returns a list of what is wrong."""

# Each text that is seen has the contrast with its ground that AA asks for.
CONTRAST = """
const parse = text => { const m = text.match(/[0-9.]+/g).map(Number); return m.length === 3 ? [...m, 1] : m; };
const linear = v => (v <= 0.03928 ? v / 12.92 : ((v + 0.055) / 1.055) ** 2.4);
const light = ([r, g, b]) => 0.2126 * linear(r / 255) + 0.7152 * linear(g / 255) + 0.0722 * linear(b / 255);
const groundOf = element => {
  for (let up = element; up; up = up.parentElement) {
    const colour = parse(getComputedStyle(up).backgroundColor);
    if (colour[3] === 1) return colour;
  }
  return [255, 255, 255, 1];
};
const wrong = [];
for (const element of document.querySelectorAll('body *')) {
  if (![...element.childNodes].some(n => n.nodeType === 3 && n.textContent.trim()) || !element.checkVisibility()) continue;
  const style = getComputedStyle(element);
  const ink = parse(element instanceof SVGElement ? style.fill : style.color);
  const [a, b] = [light(ink), light(groundOf(element))].sort((x, y) => y - x);
  const size = parseFloat(style.fontSize);
  const isLarge = size >= 24 || (size >= 18.66 && Number(style.fontWeight) >= 700);
  const ratio = (a + 0.05) / (b + 0.05);
  if (ratio < (isLarge ? 3 : 4.5)) wrong.push(`${element.tagName} ${element.textContent.slice(0, 30)} ${ratio.toFixed(2)}`);
}
return wrong;
"""

# What a reader of the screen would miss: fields and buttons without names, tables without captions, ids twice, live regions.
NAMES = """
const wrong = [];
const all = css => document.querySelectorAll(css);
for (const e of all('input, select, textarea')) if (!e.labels?.length && !e.ariaLabel) wrong.push(`no label: ${e.outerHTML.slice(0, 80)}`);
for (const e of all('button, a')) if (!e.textContent.trim() && !e.ariaLabel) wrong.push(`no name: ${e.outerHTML.slice(0, 80)}`);
for (const e of all('[tabindex]')) if (e.tabIndex > 0) wrong.push('an order of its own');
for (const e of all('table')) if (!e.caption || [...e.querySelectorAll('th')].some(th => th.scope !== 'col')) wrong.push('a bare table');
for (const e of all('fieldset')) if (!e.querySelector('legend')?.textContent) wrong.push('a bare group');
for (const e of all('svg')) if (e.getAttribute('role') !== 'img' || !e.ariaLabel) wrong.push('a drawing without a name');
for (const e of all('[aria-describedby]')) for (const id of e.getAttribute('aria-describedby').split(' ')) if (!document.getElementById(id)) wrong.push(`no ${id}`);
for (const id of ['outcome', 'waiting']) if (document.getElementById(id)?.getAttribute('aria-live') !== 'polite') wrong.push(`${id} is not live`);
for (const e of all('[aria-invalid=true]')) if (!document.activeElement.closest('form') || !e.closest('form, dialog')) wrong.push('a fault out of reach');
const ids = [...all('[id]')].map(e => e.id);
if (new Set(ids).size !== ids.length) wrong.push('an id twice');
if (all('h1').length !== 1) wrong.push('not one h1');
if (!document.documentElement.lang || !document.title) wrong.push('no language, or no title');
if (document.documentElement.scrollWidth > innerWidth) wrong.push(`wider than the window: ${document.documentElement.scrollWidth}`);
return wrong;
"""

# Large enough for a finger.
SIZES = """
const seen = [...document.querySelectorAll('nav a, #work button, #outcome button, #waiting button, summary, select, td a')];
return seen.filter(e => e.checkVisibility() && e.getBoundingClientRect().height < 26).map(e => `${e.tagName} ${e.textContent}`);
"""

# What Tab should reach, one after another: of the radios of a group the one that is chosen, or the first.
REACHABLE = """
const all = [...document.querySelectorAll('a[href], button, input, select, summary, pre[tabindex="0"]')];
const radioOf = e => document.querySelector(`[name="${e.name}"]:checked`) ?? document.querySelector(`[name="${e.name}"]`);
window.reachable = all.filter(e => e.checkVisibility() && (e.type !== 'radio' || e === radioOf(e)));
return window.reachable.length;
"""

# Where the focus is among these, and whether it is seen.
FOCUS = """
const e = document.activeElement;
const drawn = e.type === 'radio' ? e.nextElementSibling : e;
const box = drawn.getBoundingClientRect();
return [window.reachable.indexOf(e), getComputedStyle(drawn).outlineStyle !== 'none', box.width > 0 && box.left >= 0, Math.round(box.top + scrollY)];
"""

# Nothing that was written became markup, and nothing of it was carried out.
MARKUP = """
const wrong = [...document.querySelectorAll('img, iframe, object, embed, body script, svg:not(.chart), b, form[action]')].map(e => e.outerHTML.slice(0, 80));
if (window.ran !== undefined) wrong.push('a script ran');
return wrong;
"""
