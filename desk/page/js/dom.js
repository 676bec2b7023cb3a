// Elements by function calls: what people, the bank or a front wrote is only ever text, never markup.
import {say} from './words.js';

/**
 * An element: attributes that are calls are listeners, and children that are nothing are left out.
 * @template {keyof HTMLElementTagNameMap} Tag
 * @param {Tag} tag
 * @param {Record<string, any>} attributes
 * @param {any[]} children
 * @returns {HTMLElementTagNameMap[Tag]}
 */
export function h(tag, attributes = {}, ...children) {
  return filled(document.createElement(tag), attributes, children);
}

export function svg(tag, attributes = {}, ...children) {
  return filled(document.createElementNS('http://www.w3.org/2000/svg', tag), attributes, children);
}

/**
 * @template {Element} T
 * @param {T} element
 * @param {Record<string, any>} attributes
 * @param {any[]} children
 */
function filled(element, attributes, children) {
  for (const [name, value] of Object.entries(attributes)) {
    if (typeof value === 'function') element.addEventListener(name, value);
    else if (value === true) element.setAttribute(name, '');
    else if (value !== false && value !== null && value !== undefined) element.setAttribute(name, String(value));
  }
  element.append(...children.flat(Infinity).filter(child => child !== null && child !== undefined && child !== false));
  return element;
}

/** A table with a caption; `columns` are [heading, class]; a row is a list of cells. */
export function table(caption, columns, rows, attributes = {}) {
  return h('table', attributes,
    h('caption', {}, caption),
    h('thead', {}, h('tr', {}, columns.map(([heading, kind]) => h('th', {scope: 'col', class: kind}, heading)))),
    h('tbody', {}, rows.map(row => h('tr', {}, row.map((cell, at) => h('td', {class: columns[at][1]}, cell))))));
}

export function button(text, click, attributes = {}) {
  return h('button', {type: 'button', click, ...attributes}, text);
}

/** Gives the focus to an element if the one with the focus was taken away. */
export function refocus(element) {
  if (document.activeElement === document.body) element?.focus();
}

/** A button that shows `exact` in place of `readable`, and back. */
export function exactToggle(readable, exact) {
  exact.hidden = true;
  const toggle = button(say('exact'), () => {
    exact.hidden = !exact.hidden;
    readable.hidden = !exact.hidden;
    toggle.setAttribute('aria-pressed', String(!exact.hidden));
  }, {'aria-pressed': 'false'});
  return toggle;
}
