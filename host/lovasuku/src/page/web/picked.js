'use strict';

// What is picked on the map: a chain with the way that each of its lines was drawn, a junction with the
// directions of its ends, a bridge, or a gap.

class Picked {
  constructor(network) {
    this.network = network;
    this.what = null;
  }

  // Words on a plate, at a place of the screen.
  static label(context, words, left, top, theme, view) {
    context.font = '600 12px system-ui, sans-serif';
    const width = context.measureText(words).width;
    const at = view === undefined ? left : Math.max(4, Math.min(left, view.width - width - 14));
    context.globalAlpha = 0.9;
    context.fillStyle = theme.paper;
    context.fillRect(at - 4, top - 10, width + 8, 19);
    context.globalAlpha = 1;
    context.fillStyle = theme.ink;
    context.textBaseline = 'middle';
    context.textAlign = 'left';
    context.fillText(words, at, top);
  }

  paint(context, view, theme) {
    if (this.what === null) return;
    context.globalAlpha = 0.6;
    context.fillStyle = theme.paper;
    context.fillRect(0, 0, view.width, view.height);
    context.globalAlpha = 1;
    context.lineJoin = 'round';
    context.lineCap = 'round';
    const { kind, number } = this.what;
    const { bridges, gaps, junctions } = this.network;
    if (kind === 'junction') this.paintJunction(context, view, theme, junctions[number]);
    const chains = { chain: () => [number], bridge: () => [bridges[number].chain], gap: () => gaps[number].chains };
    if (kind in chains) chains[kind]().forEach((chain) => this.paintChain(context, view, theme, chain));
  }

  // The names of the lines of a chain, or the numbers of a junction's ends.
  paintLabels(context, view, theme) {
    if (this.what === null) return;
    const { kind, number } = this.what;
    if (kind === 'junction') {
      this.paintNumbers(context, view, theme, this.network.junctions[number]);
      return;
    }
    if (kind === 'chain') this.paintNames(context, view, theme, number);
    if (kind === 'bridge') this.paintEnds(context, view, theme, this.network.bridges[number].ends);
    if (kind === 'gap') this.paintEnds(context, view, theme, this.network.endsOfGap(number));
  }

  // Adds a line to a path, from its first point to its last.
  trace(context, view, line) {
    for (const [first, after] of this.network.runsOf(line)) {
      for (let k = first; k < after; k += 1) {
        const [left, top] = view.place(...this.network.point(k));
        if (k === first) context.moveTo(left, top);
        else context.lineTo(left, top);
      }
    }
  }

  paintLines(context, view, theme, lines) {
    context.beginPath();
    lines.forEach((line) => this.trace(context, view, line));
    context.strokeStyle = theme.paper;
    context.lineWidth = 9;
    context.stroke();
    context.strokeStyle = theme.picked;
    context.lineWidth = 5;
    context.stroke();
  }

  paintChain(context, view, theme, chain) {
    const path = this.network.pathOf(chain);
    this.paintLines(context, view, theme, path.map(({ line }) => line));
    for (const { line, turned } of path) this.paintArrow(context, view, theme, line, turned);
    this.paintHeads(context, view, theme, path);
  }

  // Where a chain begins and where it ends.
  paintHeads(context, view, theme, path) {
    const [first, last] = [path[0], path[path.length - 1]];
    const ends = [
      this.network.placeOf({ line: first.line, last: first.turned }),
      this.network.placeOf({ line: last.line, last: !last.turned }),
    ];
    ends.forEach((end, k) => {
      if (end === null) return;
      const [left, top] = view.place(...end);
      context.beginPath();
      context.arc(left, top, 7, 0, 2 * Math.PI);
      context.fillStyle = k === 0 ? theme.picked : theme.paper;
      context.fill();
      context.strokeStyle = theme.picked;
      context.lineWidth = 3;
      context.stroke();
    });
  }

  // The middle of a line on the screen, and the way that it runs there.
  middleOf(view, line) {
    const [first, after] = this.network.runsOf(line)[0] || [0, 0];
    const places = [];
    for (let k = first; k < after; k += 1) places.push(view.place(...this.network.point(k)));
    const steps = places.slice(1).map(([x, y], k) => Math.hypot(x - places[k][0], y - places[k][1]));
    const length = steps.reduce((sum, step) => sum + step, 0);
    let left = length / 2;
    for (let k = 0; k < steps.length; k += 1) {
      if (left <= steps[k] && steps[k] > 0) {
        const part = left / steps[k];
        const [from, to] = [places[k], places[k + 1]];
        const along = [(to[0] - from[0]) / steps[k], (to[1] - from[1]) / steps[k]];
        const place = [from[0] + part * (to[0] - from[0]), from[1] + part * (to[1] - from[1])];
        return { place, along, length };
      }
      left -= steps[k];
    }
    return null;
  }

  // The way that a line was drawn: filled along the chain, hollow against it.
  paintArrow(context, view, theme, line, turned) {
    const middle = this.middleOf(view, line);
    if (middle === null || middle.length < 36) return;
    const { place: [x, y], along: [dx, dy] } = middle;
    context.beginPath();
    context.moveTo(x + 9 * dx, y + 9 * dy);
    context.lineTo(x - 6 * dx - 6 * dy, y - 6 * dy + 6 * dx);
    context.lineTo(x - 6 * dx + 6 * dy, y - 6 * dy - 6 * dx);
    context.closePath();
    context.fillStyle = turned ? theme.paper : theme.ink;
    context.strokeStyle = turned ? theme.ink : theme.paper;
    context.lineWidth = 1.6;
    context.fill();
    context.stroke();
  }

  // The names of lines that are long enough on the screen and don't lie on one another.
  paintNames(context, view, theme, chain) {
    const taken = [];
    for (const { line } of this.network.pathOf(chain)) {
      const middle = this.middleOf(view, line);
      if (middle === null || middle.length < 60 || taken.length === 80) continue;
      const [x, y] = middle.place;
      const outside = x < 0 || y < 0 || x > view.width || y > view.height;
      if (outside || taken.some(([a, b]) => Math.abs(a - x) < 90 && Math.abs(b - y) < 22)) continue;
      taken.push([x, y]);
      this.paintName(context, theme, this.network.label(line), middle);
    }
  }

  // The names of the two ends of a bridge or a gap, on the sides that lie apart.
  paintEnds(context, view, theme, ends) {
    const places = ends.map((end) => view.place(...this.network.placeOf(end)));
    context.font = '600 12px system-ui, sans-serif';
    ends.forEach((end, k) => {
      const words = this.network.endLabel(end);
      const lower = places[k][1] > places[1 - k][1] || (k === 0 && places[0][1] === places[1][1]);
      const left = places[k][0] - context.measureText(words).width / 2;
      Picked.label(context, words, left, places[k][1] + (lower ? 30 : -30), theme, view);
    });
  }

  // The name of a line beside its middle, above it or to its right.
  paintName(context, theme, words, { place: [x, y], along: [dx, dy] }) {
    context.font = '600 12px system-ui, sans-serif';
    const width = context.measureText(words).width;
    const side = dx > 0 || (dx === 0 && dy > 0) ? 1 : -1;
    const [right, down] = [side * dy, -side * dx];
    const away = 14 + Math.abs(right) * (width / 2);
    Picked.label(context, words, x + right * away - width / 2, y + down * away, theme);
  }

  // A junction: the lines that meet, and of each end the direction into its line.
  paintJunction(context, view, theme, junction) {
    this.paintLines(context, view, theme, junction.ends.map(({ line }) => line));
    if (junction.round === 1) this.paintCell(context, view, theme, junction);
    context.lineWidth = 3;
    for (const end of junction.ends) {
      const arrow = this.arrowOf(view, end);
      if (arrow === null) continue;
      const { from, to, along: [dx, dy] } = arrow;
      context.beginPath();
      context.moveTo(...from);
      context.lineTo(...to);
      context.moveTo(to[0] - 8 * dx - 5 * dy, to[1] - 8 * dy + 5 * dx);
      context.lineTo(...to);
      context.lineTo(to[0] - 8 * dx + 5 * dy, to[1] - 8 * dy - 5 * dx);
      context.strokeStyle = theme.ink;
      context.stroke();
    }
  }

  // The cell of a junction of round two.
  paintCell(context, view, theme, junction) {
    const { tolerance, origin } = this.network.settings;
    const cell = this.network.cellOf(this.network.placeOf(junction.ends[0])).map(Number);
    const [left, bottom] = view.place(...cell.map((k, axis) => origin[axis] + k * tolerance));
    const [across, up] = view.pixels(tolerance);
    context.strokeStyle = theme.ink;
    context.lineWidth = 1.5;
    context.setLineDash([4, 3]);
    context.strokeRect(left, bottom - up, across, up);
    context.setLineDash([]);
  }

  arrowOf(view, end) {
    const direction = this.network.directionOf(end);
    if (direction === null) return null;
    const [dx, dy] = [direction[0] * view.narrow, -direction[1]];
    const length = Math.hypot(dx, dy);
    if (!(length > 0) || !Number.isFinite(length)) return null;
    const from = view.place(...this.network.placeOf(end));
    const along = [dx / length, dy / length];
    return { from, along, to: [from[0] + 46 * along[0], from[1] + 46 * along[1]] };
  }

  // The numbers of a junction's ends, beside their arrows.
  paintNumbers(context, view, theme, junction) {
    junction.ends.forEach((end, k) => {
      const arrow = this.arrowOf(view, end);
      const place = arrow === null ? view.place(...this.network.placeOf(end)) : arrow.to;
      const [dx, dy] = arrow === null ? [0, 0] : arrow.along;
      Picked.label(context, `${k} ${this.network.label(end.line)}`, place[0] + 12 * dx - 8, place[1] + 16 * dy, theme);
    });
  }
}
