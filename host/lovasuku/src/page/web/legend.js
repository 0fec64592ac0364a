'use strict';

// The legend and the scale.

class Legend {
  constructor(network) {
    this.network = network;
  }

  rows() {
    const { network } = this;
    const line = (kind, from = 4, to = 40) => ['line', { class: kind, x1: from, y1: 11, x2: to, y2: 11 }];
    const path = (kind, d) => ['path', { class: kind, d }];
    const ring = ['circle', { class: 'bridge', cx: 22, cy: 11, r: 9 }];
    const arrow = 'M16 5L30 11L16 17z';
    const diamond = 'M22 4l7 7l-7 7l-7-7z';
    const cells = 'M6 2v18M14 2v18M22 2v18M30 2v18M38 2v18M2 6h40M2 15h40';
    const round = 'M26 7A6 6 0 1 0 28 11M22.5 3.2v4h4.4';
    const junctions = network.junctions.length > 0;
    const all = [
      [true, [line('chain')], 'chain of several lines'],
      [true, [line('alone')], 'line by itself'],
      [network.bridges.length > 0, [line('bridge', 16, 28), ring], 'bridge: a segment of no line'],
      [network.gaps.length > 0, [path('gap', 'M22 3l9 15h-18z')], 'gap below the tolerance, still open'],
      [junctions, [path('junction', diamond)], 'junction with selected pairs'],
      [junctions, [path('junction none', diamond)], 'junction without'],
      [network.chains.loops.size > 0, [path('loop', round)], 'loop: it ends where it begins'],
      [network.settings.tolerance > 0, [path('cells', cells)], 'cells of the tolerance, seen from near'],
      [network.data.window !== null, [path('window', 'M5 3h34v16h-34z')], 'the window of the output'],
      [true, [line('picked'), path('along', arrow)], 'picked; drawn along its chain'],
      [true, [line('picked'), path('against', arrow)], 'picked; drawn against it'],
      [network.settings.limit !== null, [path('falls', 'M16 5l12 12M28 5l-12 12')], 'pair that falls away'],
    ];
    const shown = all.filter(([there]) => there);
    return shown.map(([, shapes, words]) => make('li', {}, sign(shapes), words));
  }

  // The highest of 1, 2 and 5 times a power of ten that is not above the number.
  static roundBelow(x) {
    const power = 10 ** Math.floor(Math.log10(x));
    const digit = [5, 2, 1].find((each) => each * power <= x * (1 + 1e-12)) || 1;
    return digit * power;
  }

  // The scale at a view: how many pixels its bar has, and its words.
  scale(view) {
    const { degrees, unit } = this.network.data.measure;
    const units = degrees ? (RADIUS * Math.PI) / 180 : 1;
    const most = (110 / view.scale) * 2 * units;
    const length = Legend.roundBelow(most);
    if (!Number.isFinite(length) || !(length > 0)) return { pixels: 0, words: '' };
    return { pixels: (length / units / 2) * view.scale, words: `${Legend.plain(length)} ${unit}` };
  }

  // A round number in words.
  static plain(x) {
    if (x >= 1e4 && x < 1e9) return Words.parted(Math.round(x));
    return x >= 1e-4 && x < 1e9 ? String(Math.round(x * 1e6) / 1e6) : x.toExponential(0).replace('e+', 'e');
  }
}
