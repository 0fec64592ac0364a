'use strict';

// What lies at a place of the screen: a mark, or else the nearest line.

class Hits {
  constructor(network, grid, marks, view) {
    Object.assign(this, { network, grid, marks, view });
  }

  // What was meant by a click, within so many pixels.
  at(left, top, reach = 9) {
    return this.markAt(left, top, reach) || this.lineAt(left, top, reach);
  }

  markAt(left, top, reach) {
    const near = ([x, y], radius) => Math.hypot(x - left, y - top) <= radius + reach / 2;
    const at = (place) => this.view.place(...place);
    const bridge = this.network.bridges.find(({ from, to }) => {
      const [a, b] = [at(from), at(to)];
      const middle = [(a[0] + b[0]) / 2, (a[1] + b[1]) / 2];
      return near(middle, Math.max(8, Math.hypot(b[0] - a[0], b[1] - a[1]) / 2));
    });
    if (bridge !== undefined) return { kind: 'bridge', number: bridge.number };
    const gap = this.network.gaps.findIndex(({ ends }) => near(at(ends[0]), 7));
    if (gap >= 0) return { kind: 'gap', number: gap };
    const shown = this.marks.shown || [];
    // Junctions of both rounds may lie at one place: the last one picked gives way to the other.
    const all = shown.filter((number) => near(at(this.marks.junctions[number]), 6));
    const picked = this.marks.picked.what;
    const other = all.find((number) => picked === null || picked.kind !== 'junction' || number > picked.number);
    if (all.length > 0) return { kind: 'junction', number: other === undefined ? all[0] : other };
    const loop = this.marks.loops.find(({ box }) => near(this.marks.loopPlace(this.view, box), 9));
    return loop === undefined ? null : { kind: 'chain', number: loop.chain, line: null };
  }

  lineAt(left, top, reach) {
    const [west, south] = this.view.point(left - reach, top + reach);
    const [east, north] = this.view.point(left + reach, top - reach);
    let best = null;
    let least = reach;
    this.grid.within([west, south, east, north], (line) => {
      const distance = this.distanceOf(line, left, top);
      if (distance > least) return;
      least = distance;
      best = { kind: 'chain', number: this.network.chainOf[line], line };
    });
    return best;
  }

  // The distance of a line from a place of the screen, in pixels.
  distanceOf(line, left, top) {
    let least = Infinity;
    for (const [first, after] of this.network.runsOf(line)) {
      let from = null;
      for (let k = first; k < after; k += 1) {
        const to = this.view.place(...this.network.point(k));
        least = Math.min(least, Hits.toSegment(from || to, to, left, top));
        from = to;
      }
    }
    return least;
  }

  static toSegment([x, y], [toX, toY], left, top) {
    const [dx, dy] = [toX - x, toY - y];
    const square = dx * dx + dy * dy;
    const part = square > 0 ? Math.min(Math.max(((left - x) * dx + (top - y) * dy) / square, 0), 1) : 0;
    return Math.hypot(x + part * dx - left, y + part * dy - top);
  }

  // What lies there in words.
  words({ kind, number, line }) {
    if (kind === 'chain' && line !== null) return `${this.network.label(line)} · chain ${number}`;
    if (kind === 'chain') return `loop · chain ${number}`;
    if (kind === 'junction') return `junction ${number} · ${this.network.junctions[number].ends.length} ends`;
    if (kind === 'gap') return `gap ${number}, still open`;
    return `bridge ${number} · ${this.network.lengthWords(this.network.bridges[number].length)}`;
  }
}
