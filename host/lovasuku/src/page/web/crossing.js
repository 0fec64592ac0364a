'use strict';

// What the panel tells of a junction: its ends with their directions, and every pair with its measure and
// the library's reason.

class Crossing {
  constructor(network, reasons, whatif) {
    Object.assign(this, { network, reasons, whatif });
  }

  elements(number) {
    const junction = this.network.junctions[number];
    return [
      Details.head('junction', number),
      make('p', {}, this.where(junction)),
      this.diagram(junction),
      this.ends(junction),
      ...this.otherRound(junction),
      make('h2', {}, 'Pairs, straightest first'),
      make('ul', { class: 'pairs' }, ...this.pairs(junction)),
      ...this.notes(junction),
    ];
  }

  where({ round, ends }) {
    const places = ends.map((end) => this.network.placeOf(end));
    if (round === 0) return `${ends.length} ends meet at ${Words.place(places[0])}, bit for bit, in round one.`;
    const cell = this.network.cellOf(places[0]).join(' ');
    return `${ends.length} ends of what round one left lie in cell ${cell}, in round two.`;
  }

  // The junctions of the other round that some of these ends have.
  otherRound(junction) {
    const other = 1 - junction.round;
    const met = junction.ends.map((end) => this.network.junctionAt(other, end));
    const numbers = [...new Set(met.filter((each) => each !== null).map((each) => each.junction.number))];
    if (numbers.length === 0) return [];
    const later = 'What was left here is looked at again in round two: ';
    const words = other === 1 ? later : 'In round one some of these ends met too: ';
    const links = numbers.flatMap((number, k) => [k > 0 ? ', ' : '', linkTo('junction', number)]);
    return [make('p', {}, words, ...links)];
  }

  ends(junction) {
    const row = (end, k) => make(
      'li', {},
      make('b', {}, String(k)), ' ', linkToLine(this.network, end.line),
      ` ${end.last ? 'end' : 'start'}, `, linkTo('chain', this.network.chainOf[end.line]),
      end.absent ? ', without a direction' : '',
    );
    return make('ul', { class: 'items ends' }, ...junction.ends.map(row));
  }

  // The directions of the ends as they leave the junction.
  diagram(junction) {
    const shapes = [];
    const text = [];
    junction.ends.forEach((end, k) => {
      const direction = this.network.directionOf(end);
      const length = direction === null ? 0 : Math.hypot(...direction);
      if (!(length > 0) || !Number.isFinite(length) || junction.ends.length > 24) return;
      const [dx, dy] = [direction[0] / length, -direction[1] / length];
      const taken = junction.selected.some((pair) => pair.includes(k));
      shapes.push(['line', { x1: 0, y1: 0, x2: 40 * dx, y2: 40 * dy, class: taken ? 'taken' : 'left' }]);
      text.push([String(k), 48 * dx, 48 * dy]);
    });
    if (shapes.length === 0) return '';
    const svg = sign(shapes);
    svg.setAttribute('viewBox', '-60 -60 120 120');
    svg.setAttribute('class', 'diagram');
    for (const [words, x, y] of text) {
      const element = document.createElementNS(SVG, 'text');
      element.setAttribute('x', x);
      element.setAttribute('y', y + 4);
      element.textContent = words;
      svg.append(element);
    }
    return svg;
  }

  pairs(junction) {
    const all = this.reasons.pairsOf(junction);
    const key = ({ measure }) => (Number.isNaN(measure) ? 2 : measure);
    all.sort((a, b) => key(a) - key(b) || a.i - b.i || a.j - b.j);
    return all.map((pair) => this.pair(junction, pair));
  }

  pair(junction, pair) {
    const [a, b] = [pair.i, pair.j].map((k) => this.network.endLabel(junction.ends[k]));
    const selected = pair.reason === REASON.SELECTED && this.network.settings.limit !== null;
    const item = make(
      'li', { class: selected ? 'selected' : '' },
      make('span', { class: 'badge' }, this.badge(junction, pair)), ' ',
      make('b', {}, `${pair.i} ${a}, ${pair.j} ${b}`),
      make('span', { class: 'reason' }, ` ${this.verdict(junction, pair)}.`),
    );
    const tag = this.whatif.tag(this.whatif.ofPair(junction, pair.rank), junction.round);
    if (tag !== null) item.append(make('span', { class: 'falls' }, tag));
    return item;
  }

  verdict(junction, pair) {
    const words = this.reasons.verdict(junction, pair);
    if (this.network.settings.limit !== null || Number.isNaN(pair.measure)) return words;
    return `${words}; ${Words.measure(pair.measure)}`;
  }

  badge(junction, { reason, rank }) {
    if (this.network.settings.limit === null) return 'not paired';
    const words = ['', 'same piece', 'no direction', 'not qualifying'];
    if (reason === REASON.SELECTED) return `selected, ${rank + 1} of ${junction.selected.length}`;
    return reason >= REASON.BLOCKED ? `blocked by pair ${reason - REASON.BLOCKED + 1}` : words[reason];
  }

  notes(junction) {
    const limited = this.network.settings.limit !== null;
    if (junction.whole || (!limited && junction.ends.length <= 24)) return [];
    const all = 'The pairs of this junction do not stand in the page';
    const shown = limited ? 'Only the selected pairs of this junction stand in the page' : all;
    return [make('p', {}, `${shown}, for its size. The command \`lovasuku why\` tells of any two lines.`)];
  }
}
