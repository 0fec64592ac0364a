'use strict';

// Elements of the page. Whatever a text holds, it stays text.

// An element of a name, with attributes and what stands in it: texts and other elements.
function make(name, attributes = {}, ...children) {
  const element = document.createElement(name);
  for (const [attribute, value] of Object.entries(attributes)) {
    if (attribute === 'on') {
      for (const [event, heed] of Object.entries(value)) element.addEventListener(event, heed);
    } else if (value !== null) {
      element.setAttribute(attribute, value);
    }
  }
  element.append(...children.filter((child) => child !== null));
  return element;
}

// A link to something of the page.
function linkTo(kind, number, words = `${kind} ${number}`) {
  return make('a', { href: `#${kind}=${number}` }, words);
}

// A link to a line.
function linkToLine(network, line) {
  const words = network.label(line);
  return make('a', { href: `#line=${encodeURIComponent(words)}`, class: 'line' }, words);
}

// A table of two columns.
function table(rows) {
  const row = ([name, value]) => make('tr', {}, make('th', { scope: 'row' }, name), make('td', {}, value));
  return make('table', { class: 'facts' }, make('tbody', {}, ...rows.map(row)));
}

// A list of items, of which the first so many are shown until more are asked for.
function list(items, shown, make_item) {
  const all = make('ul', { class: 'items' }, ...items.slice(0, shown).map(make_item));
  if (items.length <= shown) return all;
  const more = () => {
    const next = items.slice(all.children.length - 1, all.children.length - 1 + 200);
    button.before(...next.map(make_item));
    if (all.children.length > items.length) button.remove();
  };
  const words = `more of ${Words.parted(items.length)}`;
  const button = make('li', { class: 'more' }, make('button', { type: 'button', on: { click: more } }, words));
  all.append(button);
  return all;
}

const SVG = 'http://www.w3.org/2000/svg';

// A sign of the legend.
function sign(children) {
  const svg = document.createElementNS(SVG, 'svg');
  svg.setAttribute('viewBox', '0 0 44 22');
  svg.setAttribute('aria-hidden', 'true');
  for (const [name, attributes] of children) {
    const element = document.createElementNS(SVG, name);
    for (const [attribute, value] of Object.entries(attributes)) element.setAttribute(attribute, value);
    svg.append(element);
  }
  return svg;
}
