'use strict';

// The page: reads the data, shows the map, and shows what a link or a click asks for.

{
  const element = (name) => document.getElementById(name);
  const network = new Network(Data.read(element('data').textContent));
  const grid = new Grid(network);
  const view = new View(network);
  const reasons = new Reasons(network);
  const whatif = new WhatIf(network);
  const marks = new Marks(network, whatif);
  marks.grid = grid;
  const painter = new Painter(element('canvas'), network, grid, view, marks);
  const hits = new Hits(network, grid, marks, view);
  const details = new Details(network, reasons, whatif);
  const crossing = new Crossing(network, reasons, whatif);
  const legend = new Legend(network);
  const overview = new Overview(network, whatif, () => painter.ask());
  const panel = element('panel');

  // What a link asks for: a kind and a number, a line, or nothing. Words where it asks for what is not there.
  function asked(hash) {
    const [, kind, text] = /^#(chain|junction|bridge|gap|line)=(.*)$/.exec(hash) || [];
    if (kind === undefined) return null;
    if (kind === 'line') return ofLine(text);
    const counts = {
      chain: network.chains.count,
      junction: network.junctions.length,
      bridge: network.bridges.length,
      gap: network.gaps.length,
    };
    const number = /^\d+$/.test(text) ? Number(text) : NaN;
    if (number < counts[kind]) return { kind, number, line: null };
    const words = counts[kind] === 0 ? 'and there is none' : `they go from 0 to ${counts[kind] - 1}`;
    return { missing: `There is no ${kind} ${text} in this page; ${words}.` };
  }

  function ofLine(text) {
    let name = text;
    try {
      name = decodeURIComponent(text);
    } catch (fault) {
      // What is no encoded text is taken as it is.
    }
    for (let line = 0; line < network.lines.count; line += 1) {
      if (network.label(line) === name) return { kind: 'chain', number: network.chainOf[line], line };
    }
    return { missing: `There is no line ${name} in this page.` };
  }

  // The box of what is shown.
  function boxOf({ kind, number, line }) {
    if (kind === 'chain' && line !== null) return network.extentOf([line]);
    if (kind === 'chain') return network.extentOf(network.pathOf(number).map((step) => step.line));
    const places = {
      bridge: () => [network.bridges[number].from, network.bridges[number].to],
      gap: () => network.gaps[number].ends,
      junction: () => network.junctions[number].ends.map((end) => network.placeOf(end)),
    }[kind]();
    const xs = places.map(([x]) => x);
    const ys = places.map(([, y]) => y);
    return [Math.min(...xs), Math.min(...ys), Math.max(...xs), Math.max(...ys)];
  }

  // How near a place is looked at: so that its surroundings are seen too.
  function lookAt(what) {
    const box = boxOf(what);
    if (box === null) return;
    if (what.kind === 'chain') {
      view.show(box, what.line === null ? 0.8 : 0.5, 400);
      return;
    }
    view.show(box, 0.3);
    const { tolerance } = network.settings;
    const cells = what.kind !== 'junction' || network.junctions[what.number].round === 1;
    const lines = () => network.junctions[what.number].ends.map(({ line }) => line);
    // A cell has a part of the screen; where there is none to be seen, the lines that meet are seen.
    const most = cells
      ? (Math.min(view.width, view.height) / 5 / tolerance) * 2
      : view.fitting(network.extentOf(lines()), 1) * 1.6;
    view.scale = Math.min(view.scale, Math.max(most, view.fits));
  }

  function elementsOf(what) {
    if (what === null) return overview.elements();
    if (what.missing !== undefined) {
      return [make('p', { class: 'missing', role: 'alert' }, what.missing), ...overview.elements()];
    }
    if (what.kind === 'chain') return details.chain(what.number, what.line);
    if (what.kind === 'junction') return crossing.elements(what.number);
    return what.kind === 'bridge' ? details.bridge(what.number) : details.gap(what.number);
  }

  // Shows what the link asks for.
  function show(move) {
    const what = asked(location.hash);
    marks.picked.what = what === null || what.missing !== undefined ? null : what;
    const held = panel.contains(document.activeElement);
    panel.replaceChildren(...elementsOf(what));
    panel.scrollTop = 0;
    // Who came by a link of the panel goes on in it.
    if (held) panel.focus({ preventScroll: true });
    const current = panel.querySelector('[aria-current]');
    if (current !== null) current.scrollIntoView({ block: 'center' });
    if (marks.picked.what !== null && move) lookAt(marks.picked.what);
    const title = what === null || what.missing !== undefined ? '' : `${what.kind} ${what.number} · `;
    document.title = `${title}${network.data.input.name} · Lovasuku`;
    painter.ask();
  }

  // The link to what was hit.
  function linkOf(hit) {
    if (hit === null) return '';
    const line = hit.kind === 'chain' && hit.line !== null;
    return line ? `#line=${encodeURIComponent(network.label(hit.line))}` : `#${hit.kind}=${hit.number}`;
  }

  let clicked = false;

  function click(left, top, reach) {
    const hash = linkOf(hits.at(left, top, reach));
    if (hash === location.hash) return;
    clicked = true;
    location.hash = hash;
  }

  function hover(place) {
    const hit = place === null ? null : hits.at(place[0], place[1], 6);
    const words = hit === null ? null : hits.words(hit);
    element('canvas').classList.toggle('over', hit !== null);
    const before = marks.hover === null ? null : marks.hover.words;
    marks.hover = hit === null ? null : { words, left: place[0], top: place[1] };
    if (before !== null || words !== null) painter.ask();
  }

  const moving = new Moving(element('canvas'), view, painter, {
    click, hover, clear: () => { location.hash = ''; },
  });

  // The theme: that of the system, until the other one is asked for.
  const dark = matchMedia('(prefers-color-scheme: dark)');
  function dress(name) {
    if (name !== undefined) document.documentElement.dataset.theme = name;
    const now = document.documentElement.dataset.theme || (dark.matches ? 'dark' : 'light');
    element('theme').textContent = now === 'dark' ? 'Light' : 'Dark';
    painter.dress();
    return now;
  }

  function resize() {
    const { clientWidth, clientHeight } = element('map');
    const before = view.fits;
    const whole = view.scale === before;
    painter.resize(clientWidth, clientHeight, devicePixelRatio || 1);
    if (whole) view.showAll();
  }

  function scale() {
    const { pixels, words } = legend.scale(view);
    element('bar').style.width = `${pixels}px`;
    element('length').textContent = words;
  }

  const frame = painter.frame.bind(painter);
  painter.frame = () => {
    frame();
    scale();
  };

  element('name').textContent = network.data.input.name;
  element('tally').textContent = overview.tally();
  element('signs').append(...legend.rows());
  element('legend').open = innerWidth > 900;
  element('colophon').append(table(overview.facts()));
  element('closer').addEventListener('click', () => moving.zoom(1.6));
  element('farther').addEventListener('click', () => moving.zoom(1 / 1.6));
  element('all').addEventListener('click', () => moving.showAll());
  element('theme').addEventListener('click', () => dress(dress() === 'dark' ? 'light' : 'dark'));
  element('print').addEventListener('click', () => print());
  dark.addEventListener('change', () => dress());
  new Search(network, element('search'), element('words'), element('found'));
  addEventListener('hashchange', () => {
    show(!clicked);
    clicked = false;
  });
  new ResizeObserver(resize).observe(element('map'));
  addEventListener('beforeprint', () => {
    document.documentElement.classList.add('printing');
    painter.dress();
    resize();
    if (marks.picked.what !== null) lookAt(marks.picked.what);
    painter.whole();
  });
  addEventListener('afterprint', () => {
    document.documentElement.classList.remove('printing');
    painter.dress();
    resize();
  });
  resize();
  view.showAll();
  dress();
  show(true);
  // For the page's tests.
  window.lovasuku = { network, reasons, whatif, view, painter, marks, hits };
}
