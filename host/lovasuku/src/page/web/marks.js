'use strict';

// What is marked on the map: bridges, gaps that stayed open, loops, junctions, the cells of the tolerance
// and the window. Each has a shape of its own, so that no colour has to be told from another.

class Marks {
  constructor(network, whatif) {
    this.network = network;
    this.whatif = whatif;
    this.picked = new Picked(network);
    this.hover = null;
    this.junctions = network.junctions.map((junction) => network.middleOf(junction));
    this.loops = [...network.chains.loops].map((chain) => {
      const box = network.extentOf(network.pathOf(chain).map(({ line }) => line));
      return { chain, box };
    });
  }

  // How many marks of a kind are shown as signs; more are dots, or, of junctions, nothing.
  static get MOST() {
    return 600;
  }

  // What lies under the lines.
  paintBelow(context, view, theme) {
    this.paintWindow(context, view, theme);
    this.paintCells(context, view, theme);
  }

  // What lies over them.
  paint(context, view, theme) {
    this.seen = view.box(20);
    this.picked.paint(context, view, theme);
    this.paintEnds(context, view, theme);
    this.paintJunctions(context, view, theme);
    this.paintLoops(context, view, theme);
    this.paintGaps(context, view, theme);
    this.paintBridges(context, view, theme);
    this.paintFallen(context, view, theme);
    this.picked.paintLabels(context, view, theme);
    this.paintHover(context, view, theme);
  }

  sees([x, y]) {
    const [west, south, east, north] = this.seen;
    return x >= west && x <= east && y >= south && y <= north;
  }

  paintWindow(context, view, theme) {
    const { window: corners } = this.network.data;
    if (corners === null) return;
    const [left, bottom] = view.place(...corners[0]);
    const [right, top] = view.place(...corners[1]);
    context.setLineDash([7, 4]);
    context.strokeStyle = theme.window;
    context.lineWidth = 1.6;
    context.strokeRect(left, top, right - left, bottom - top);
    context.setLineDash([]);
  }

  // The grid, where a cell has some pixels.
  paintCells(context, view, theme) {
    const { tolerance, origin } = this.network.settings;
    const [across, up] = view.pixels(tolerance);
    if (!(tolerance > 0) || Math.min(across, up) < 9) return;
    const [west, south, east, north] = view.box();
    context.beginPath();
    const first = (low, axis) => Math.ceil((low - origin[axis]) / tolerance);
    for (let k = first(west, 0); origin[0] + k * tolerance <= east; k += 1) {
      const [left] = view.place(origin[0] + k * tolerance, 0);
      context.moveTo(left, 0);
      context.lineTo(left, view.height);
    }
    for (let k = first(south, 1); origin[1] + k * tolerance <= north; k += 1) {
      const top = view.place(0, origin[1] + k * tolerance)[1];
      context.moveTo(0, top);
      context.lineTo(view.width, top);
    }
    context.strokeStyle = theme.cell;
    context.lineWidth = 1;
    context.stroke();
  }

  // The ends of lines, where few lines are seen.
  paintEnds(context, view, theme) {
    if (view.scale < view.fits * 2 && this.network.lines.count > 400) return;
    const lines = [];
    this.grid.within(this.seen, (line) => lines.push(line));
    if (lines.length > 400) return;
    context.beginPath();
    for (const line of lines) {
      if (!this.network.isPlain(line)) continue;
      for (const last of [false, true]) {
        const [left, top] = view.place(...this.network.placeOf({ line, last }));
        context.moveTo(left + 2.6, top);
        context.arc(left, top, 2.6, 0, 2 * Math.PI);
      }
    }
    context.fillStyle = theme.paper;
    context.strokeStyle = theme.ink;
    context.lineWidth = 1.1;
    context.fill();
    context.stroke();
  }

  junctionsSeen() {
    const all = [];
    this.junctions.forEach((place, number) => {
      if (this.sees(place)) all.push(number);
    });
    return all.length > Marks.MOST ? [] : all;
  }

  paintJunctions(context, view, theme) {
    this.shown = this.junctionsSeen();
    context.lineWidth = 1.5;
    for (const number of this.shown) {
      const [left, top] = view.place(...this.junctions[number]);
      const { round, selected } = this.network.junctions[number];
      const size = round === 0 ? 6 : 4.5;
      context.beginPath();
      context.moveTo(left, top - size);
      context.lineTo(left + size, top);
      context.lineTo(left, top + size);
      context.lineTo(left - size, top);
      context.closePath();
      context.fillStyle = selected.length > 0 ? theme.paper : theme.faint;
      context.strokeStyle = theme.ink;
      context.fill();
      context.stroke();
    }
  }

  // Where the sign of a loop stands: in its middle, or beside it where it is small.
  loopPlace(view, box) {
    const [left, bottom] = view.place(box[0], box[1]);
    const [right, top] = view.place(box[2], box[3]);
    const small = Math.min(right - left, bottom - top) < 30;
    return [small ? right + 14 : (left + right) / 2, (top + bottom) / 2];
  }

  paintLoops(context, view, theme) {
    const seen = this.loops.filter(({ box }) => this.sees([box[0] / 2 + box[2] / 2, box[1] / 2 + box[3] / 2]));
    if (seen.length > Marks.MOST) return;
    context.lineWidth = 2.2;
    context.lineCap = 'round';
    for (const { box } of seen) {
      const [left, top] = this.loopPlace(view, box);
      context.beginPath();
      context.arc(left, top, 9, 0, 2 * Math.PI);
      context.fillStyle = theme.paper;
      context.fill();
      context.beginPath();
      context.arc(left, top, 6, -0.8, 4.9);
      context.moveTo(left + 1.4, top - 9);
      context.lineTo(left + 1.4, top - 5.6);
      context.lineTo(left - 2.2, top - 5.6);
      context.strokeStyle = theme.loop;
      context.stroke();
    }
  }

  // A bridge in red, in a ring that is seen however short it is.
  paintBridges(context, view, theme) {
    const seen = this.network.bridges.filter(({ from, to }) => this.sees(from) || this.sees(to));
    const many = seen.length > Marks.MOST;
    context.strokeStyle = theme.bridge;
    context.fillStyle = theme.bridge;
    for (const { from, to } of seen) {
      const [left, top] = view.place(...from);
      const [right, bottom] = view.place(...to);
      if (many) {
        context.fillRect(left - 1.5, top - 1.5, 3, 3);
        continue;
      }
      const apart = Math.hypot(right - left, bottom - top);
      context.lineWidth = 4;
      context.beginPath();
      context.moveTo(left, top);
      context.lineTo(right, bottom);
      context.stroke();
      context.lineWidth = 2;
      context.beginPath();
      context.arc((left + right) / 2, (top + bottom) / 2, Math.max(8, apart / 2 + 5), 0, 2 * Math.PI);
      context.stroke();
    }
  }

  // A gap that stayed open: a triangle in amber with a dark edge.
  paintGaps(context, view, theme) {
    const seen = this.network.gaps.filter(({ ends }) => this.sees(ends[0]));
    const size = seen.length > Marks.MOST ? 2.5 : 7;
    context.fillStyle = theme.gap;
    context.strokeStyle = theme['gap-edge'];
    context.lineWidth = 1.2;
    for (const { ends } of seen) {
      const [left, top] = view.place(...ends[0]);
      context.beginPath();
      context.moveTo(left, top - size);
      context.lineTo(left + size, top + 0.8 * size);
      context.lineTo(left - size, top + 0.8 * size);
      context.closePath();
      context.fill();
      context.stroke();
    }
  }

  // A pair that falls away at the stricter limit: a cross.
  paintFallen(context, view, theme) {
    const { whatif } = this;
    if (!whatif.strict) return;
    const falls = ({ junction, rank }) => whatif.ofPair(junction, rank) === 'falls';
    context.beginPath();
    for (const { junction } of whatif.fallen.filter(falls)) {
      const place = this.junctions[junction.number];
      if (!this.sees(place)) continue;
      const [left, top] = view.place(...place);
      context.moveTo(left - 6, top - 6);
      context.lineTo(left + 6, top + 6);
      context.moveTo(left - 6, top + 6);
      context.lineTo(left + 6, top - 6);
    }
    context.lineCap = 'butt';
    context.strokeStyle = theme.paper;
    context.lineWidth = 6;
    context.stroke();
    context.strokeStyle = theme.falls;
    context.lineWidth = 3;
    context.stroke();
  }

  // The name of what lies under the pointer.
  paintHover(context, view, theme) {
    if (this.hover === null) return;
    const { words, left, top } = this.hover;
    Picked.label(context, words, left + 14, top - 12, theme, view);
  }
}
