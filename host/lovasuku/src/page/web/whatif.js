'use strict';

// What if the limit were stricter? Of the pairs that a junction selects in their order, those up to the
// stricter limit are what it selects then: the others fall away from the end of the list. So it is proved,
// and no new run is needed.
//
// Round two takes the ends that round one leaves. Where a pair of round one falls away, its two ends are
// free in their cell, and its piece is two. What round two makes of that cell and of these pieces, the two
// ends themselves among them, takes a run to tell; it is told as open.

class WhatIf {
  constructor(network) {
    this.network = network;
    this.limit = network.settings.limit;
    this.pairs = [];
    for (const junction of network.junctions) {
      const all = junction.whole ? null : junction.measures;
      junction.selected.forEach(([i, j], rank) => {
        const at = all === null ? Reasons.placeOf(junction.ends.length, i, j) : rank;
        this.pairs.push({ junction, rank, ends: [i, j], measure: junction.measures[at] });
      });
    }
    this.later = this.ofRoundTwo();
    this.at(this.limit);
  }

  // The joints that round two made.
  ofRoundTwo() {
    const { network } = this;
    const all = [];
    for (let chain = 0; chain < network.chains.count; chain += 1) {
      for (let k = 0; k + 1 < network.countOf(chain); k += 1) {
        const kind = network.jointKind(chain, k);
        if (kind === JOINT.CELL || kind === JOINT.CELL_JUNCTION) all.push({ chain, joint: k });
      }
    }
    return all;
  }

  // True where there is anything to ask.
  get asks() {
    return this.limit !== null && this.pairs.length > 0;
  }

  // Asks for a limit, which is not above the run's.
  at(limit) {
    this.asked = limit;
    this.strict = limit !== null && this.limit !== null && limit < this.limit;
    this.fallen = this.strict ? this.pairs.filter(({ measure }) => !(measure <= limit)) : [];
    this.cells = new Set();
    this.pieces = new Set();
    for (const { junction, ends } of this.fallen.filter((pair) => pair.junction.round === 0)) {
      for (const end of ends.map((k) => junction.ends[k])) {
        if (this.network.settings.tolerance > 0) this.cells.add(this.cellKey(end));
        this.pieces.add(this.network.pieceOf[end.line]);
      }
    }
    this.open = this.strict ? this.openJoints() : [];
  }

  // The class and the cell of an end.
  cellKey(end) {
    const { network } = this;
    const { classes } = network.data;
    const group = classes === null ? 0 : classes.of[end.line];
    return `${group} ${network.cellOf(network.placeOf(end)).join(' ')}`;
  }

  // True where what round two makes of some ends takes a run.
  takesRun(ends) {
    const touched = (end) => this.pieces.has(this.network.pieceOf[end.line]);
    return this.cells.has(this.cellKey(ends[0])) || ends.some(touched);
  }

  // What becomes of a pair of a junction: it stands, it falls, or it takes a run to tell.
  ofPair(junction, rank) {
    if (!this.strict || rank < 0) return 'stands';
    if (junction.round === 1 && this.takesRun(junction.ends)) return 'open';
    const [i, j] = junction.selected[rank];
    const at = junction.whole ? Reasons.placeOf(junction.ends.length, i, j) : rank;
    return junction.measures[at] <= this.asked ? 'stands' : 'falls';
  }

  // What becomes of the joint of line k and line k + 1 of a chain.
  ofJoint(chain, k) {
    const { network } = this;
    const kind = network.jointKind(chain, k);
    if (!this.strict || kind === JOINT.PLACE) return 'stands';
    const [a, b] = network.jointEnds(chain, k);
    if (kind === JOINT.CELL) return this.takesRun([a, b]) ? 'open' : 'stands';
    const round = kind === JOINT.CELL_JUNCTION ? 1 : 0;
    const { junction, place } = network.junctionAt(round, a);
    const other = network.junctionAt(round, b).place;
    const pair = [Math.min(place, other), Math.max(place, other)];
    const rank = junction.selected.findIndex(([i, j]) => i === pair[0] && j === pair[1]);
    return this.ofPair(junction, rank);
  }

  // The joints of round two of which it takes a run to tell.
  openJoints() {
    if (this.cells.size === 0) return [];
    return this.later.filter(({ chain, joint }) => this.ofJoint(chain, joint) === 'open');
  }

  // What is told of a joint or a pair that falls or is open; nothing of one that stands.
  tag(becomes, round) {
    if (becomes === 'open') return ' At the stricter limit it takes a run to tell.';
    if (becomes !== 'falls') return null;
    const again = round === 0 && this.network.settings.tolerance > 0;
    const more = again ? ', in round one; round two looks at its ends again' : '';
    return ` Falls away at ${Words.limit(this.asked)}${more}.`;
  }

  // How many pairs stand, in words.
  words() {
    const all = this.pairs.length;
    if (!this.strict) return `All ${Words.count(all, 'selected pair')} stand, as in the run.`;
    const falls = this.fallen.filter(({ junction, rank }) => this.ofPair(junction, rank) === 'falls');
    const stands = this.pairs.filter(({ junction, rank }) => this.ofPair(junction, rank) === 'stands');
    const words = [
      `${Words.parted(stands.length)} of ${Words.count(all, 'selected pair')} stand, ` +
        `${Words.parted(falls.length)} fall away.`,
    ];
    if (this.cells.size > 0) {
      words.push(
        'Round two looks again at the ends of those of round one, and it takes a run to tell what it joins there' +
          (this.open.length > 0 ? `, and of ${Words.count(this.open.length, 'joint')} that it made.` : '.'),
      );
    }
    return words.join(' ');
  }
}
