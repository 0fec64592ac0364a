'use strict';

// What the panel tells of a chain, of a bridge and of a gap.

class Details {
  constructor(network, reasons, whatif) {
    Object.assign(this, { network, reasons, whatif });
  }

  // The head of what is told: its name, a link to it and a way back.
  static head(kind, number, tag = null) {
    const link = `#${kind}=${number}`;
    const name = `${kind[0].toUpperCase()}${kind.slice(1)} ${number} `;
    const sign = tag === null ? null : make('span', { class: 'tag' }, tag);
    return make(
      'div', { class: 'head' },
      make('a', { href: '#', class: 'back', title: 'Back to all' }, 'All'),
      make('h2', { id: 'what' }, name, sign),
      make('a', { href: link, class: 'link', title: 'A link to this, to be sent with the page' }, link),
    );
  }

  chain(number, line = null) {
    const { network } = this;
    const path = network.pathOf(number);
    const loop = network.chains.loops.has(number) ? 'loop' : null;
    const kind = network.classOf(path[0].line);
    const words = `${Words.count(path.length, 'line')}, ${network.lengthWords(network.lengthOfChain(number))} long`;
    return [
      Details.head('chain', number, loop),
      make('p', {}, kind === null ? `${words}.` : `${words}, ${kind}.`),
      line === null ? null : this.line(line),
      make('ol', { class: 'way' }, ...this.way(number, path, line)),
    ].filter((element) => element !== null);
  }

  // The lines of a chain in travel order, and between each two why they are joined.
  way(number, path, picked) {
    const items = [];
    path.forEach((step, k) => {
      if (k > 0) items.push(this.joint(number, k - 1));
      items.push(this.step(step, step.line === picked));
    });
    const closing = this.reasons.ofClosing(number);
    if (closing !== null) {
      const words = ` ${closing.words} The way is walked once around.`;
      items.push(make('li', { class: 'joint' }, make('span', { class: 'badge' }, 'ring'), words));
    }
    return items;
  }

  // A line: its name, the way that it was drawn and its length.
  step({ line, turned }, picked) {
    const { network } = this;
    const drawn = turned ? 'drawn against' : 'drawn along';
    const way = make('span', { class: 'drawn', title: `${drawn} the chain` }, turned ? '←' : '→');
    const words = ` ${drawn}, ${network.lengthWords(network.lengthOf(line))}`;
    const item = make('li', { class: 'step' }, way, ' ', linkToLine(network, line), words);
    if (picked) item.setAttribute('aria-current', 'true');
    return item;
  }

  // Why two lines are joined.
  joint(chain, k) {
    const { kind, words, junction } = this.reasons.ofJoint(chain, k);
    const bridge = this.network.bridgeAt(chain, k);
    const badge = make('span', { class: 'badge' }, kind);
    const item = make('li', { class: bridge === null ? 'joint' : 'joint bridged' }, badge, ` ${words}`);
    if (junction !== null) item.append(' ', linkTo('junction', junction.number));
    if (bridge !== null) item.append(' ', linkTo('bridge', bridge.number));
    const tag = this.whatif.tag(this.whatif.ofJoint(chain, k), junction === null ? 1 : junction.round);
    if (tag !== null) item.append(make('span', { class: 'falls' }, tag));
    return item;
  }

  // What is known of a line: its class, its properties, and what its ends meet.
  line(line) {
    const { network } = this;
    const rows = network.propertiesOf(line);
    const kind = network.classOf(line);
    if (kind !== null) rows.unshift(['Class', kind]);
    return make(
      'details', { class: 'card', open: '' },
      make('summary', {}, `Line ${network.label(line)}`),
      rows.length === 0 ? null : table(rows),
      make('ul', { class: 'items' }, ...this.endsOf(line)),
    );
  }

  // What the two ends of a line meet.
  endsOf(line) {
    const { network } = this;
    if (!network.isPlain(line)) {
      return [make('li', {}, 'It passes through: it is no single line of two positions or more.')];
    }
    return [false, true].map((last) => {
      const end = { line, last };
      const item = make('li', {}, `${network.endLabel(end)} lies at ${Words.place(network.placeOf(end))}`);
      for (const round of [0, 1]) {
        const met = network.junctionAt(round, end);
        if (met !== null) item.append(', ', linkTo('junction', met.junction.number));
      }
      for (const other of this.apart(end)) {
        item.append(`; ${network.endLabel(other)} lies there too, of another class`);
      }
      return item;
    });
  }

  // Ends of other classes at the same place, which are never joined with it.
  apart(end) {
    const { network } = this;
    const [x, y] = network.placeOf(end);
    const found = [];
    for (let line = 0; network.data.classes !== null && line < network.lines.count; line += 1) {
      if (!network.isPlain(line) || network.classOf(line) === network.classOf(end.line)) continue;
      for (const last of [false, true]) {
        const [otherX, otherY] = network.placeOf({ line, last });
        if (otherX === x && otherY === y) found.push({ line, last });
      }
    }
    return found;
  }

  bridge(number) {
    const { network } = this;
    const { chain, joint, from, to, length } = network.bridges[number];
    const { words, junction } = this.reasons.ofJoint(chain, joint);
    const rows = [
      ['Length', network.lengthWords(length)],
      ['From', Words.place(from)],
      ['To', Words.place(to)],
      ['Cell', network.cellOf(from).join(' ')],
      ['Chain', linkTo('chain', chain)],
    ];
    if (junction !== null) rows.push(['Junction', linkTo('junction', junction.number)]);
    return [
      Details.head('bridge', number),
      make('p', {}, 'A segment that is of no line: the tolerance made it. Is there a way through?'),
      table(rows),
      make('p', { class: 'reason' }, words),
      ...this.longer(from, to),
    ];
  }

  // What is told of a bridge that is longer than the tolerance.
  longer([x, y], [toX, toY]) {
    const { tolerance } = this.network.settings;
    if (Math.hypot(toX - x, toY - y) <= tolerance) return [];
    const across = Words.rounded(tolerance * Math.SQRT2);
    const words =
      `It is longer than the tolerance of ${Words.number(tolerance)}: a cell is not a distance, ` +
      `and is up to ${across} across.`;
    return [make('p', {}, words)];
  }

  gap(number) {
    const { network } = this;
    const gap = network.gaps[number];
    const [from, to] = gap.ends;
    const both = ([one, other]) => make('span', {}, one, ' and ', other);
    return [
      Details.head('gap', number),
      make('p', {}, 'Two ends nearer to each other than the tolerance that were not joined.'),
      table([
        ['Length', network.lengthWords(network.distance(from, to))],
        ['From', Words.place(from)],
        ['To', Words.place(to)],
        ['Lines', both(gap.lines.map((line) => linkToLine(network, line)))],
        ['Chains', both(gap.chains.map((chain) => linkTo('chain', chain)))],
      ]),
      make('p', { class: 'reason' }, this.reasons.ofGap(gap)),
    ];
  }
}
