'use strict';

// Why ends are joined or not, in the words of `lovasuku why`. The reasons themselves are the library's
// and stand in the data.

const REASON = { SELECTED: 0, SAME_PIECE: 1, ABSENT: 2, NOT_QUALIFYING: 3, BLOCKED: 4 };

class Reasons {
  constructor(network) {
    this.network = network;
  }

  // The place of a pair of a junction among all its pairs: 0 with 1, 0 with 2 .. 1 with 2, and so on.
  static placeOf(count, i, j) {
    return i * count - (i * (i + 1)) / 2 + (j - i - 1);
  }

  // All pairs of a junction that the data tells of, by the places of their ends, with their measures,
  // their ranks among the selected ones and their reasons.
  pairsOf(junction) {
    const { ends, selected, whole, measures, reasons } = junction;
    if (this.network.settings.limit === null) return this.unpaired(junction);
    if (!whole) {
      return selected.map(([i, j], rank) => {
        return { i, j, measure: measures[rank], rank, reason: REASON.SELECTED };
      });
    }
    const all = [];
    for (let i = 0; i < ends.length; i += 1) {
      for (let j = i + 1; j < ends.length; j += 1) {
        const rank = selected.findIndex((pair) => pair[0] === i && pair[1] === j);
        all.push({ i, j, measure: measures[all.length], rank, reason: reasons[all.length] });
      }
    }
    return all;
  }

  // All pairs of a junction where no junctions are paired. Their measures are for the reader alone.
  unpaired({ ends }) {
    const all = [];
    const most = ends.length > 24 ? 0 : ends.length;
    for (let i = 0; i < most; i += 1) {
      for (let j = i + 1; j < most; j += 1) {
        const [a, b] = [ends[i], ends[j]].map((end) => this.unit(end));
        const measure = Math.min(Math.max(a[0] * b[0] + a[1] * b[1], -1), 1);
        all.push({ i, j, measure, rank: -1, reason: null });
      }
    }
    return all;
  }

  // The unit direction of an end.
  unit(end) {
    const [dx, dy] = this.network.directionOf(end) || [NaN, NaN];
    const length = Math.sqrt(dx * dx + dy * dy);
    return [dx / length, dy / length];
  }

  // One pair of a junction, if the data tells of it.
  pairOf(junction, a, b) {
    const [i, j] = [Math.min(a, b), Math.max(a, b)];
    const rank = junction.selected.findIndex((pair) => pair[0] === i && pair[1] === j);
    const { whole, measures, reasons, ends } = junction;
    const at = whole ? Reasons.placeOf(ends.length, i, j) : rank;
    if (at < 0) return null;
    return { i, j, measure: measures[at], rank, reason: whole ? reasons[at] : REASON.SELECTED };
  }

  // Where two ends meet, of so many in a round, at a junction where they are three or more.
  where(round, a, b, count, junction) {
    const { network } = this;
    const [from, to] = [a, b].map((end) => network.placeOf(end));
    const [one, other] = [a, b].map((end) => network.endLabel(end));
    const among = junction === null ? 'with no third end' : `2 of ${count} ends: junction ${junction}`;
    if (round === 0) return `${one} and ${other} lie at ${Words.place(from)}, bit for bit, ${among} (round one)`;
    const apart = network.lengthWords(network.distance(from, to));
    const cell = network.cellOf(from).join(' ');
    return (
      `${one} at ${Words.place(from)} and ${other} at ${Words.place(to)} are ${apart} apart ` +
      `in cell ${cell}, ${among} (round two)`
    );
  }

  // Whether a pair of a junction is joined, and why.
  verdict(junction, pair) {
    const { limit } = this.network.settings;
    const name = (k) => this.network.endLabel(junction.ends[k]);
    if (limit === null) return 'not joined: junctions are not paired';
    if (pair.reason === REASON.SELECTED) {
      const rank = `pair ${pair.rank + 1} of ${junction.selected.length}`;
      return `joined as ${rank}: ${Words.measure(pair.measure)}, ${Words.limit(limit)}`;
    }
    if (pair.reason === REASON.SAME_PIECE) return 'not joined: they are the two ends of one piece';
    if (pair.reason === REASON.ABSENT) {
      const absent = [pair.i, pair.j].filter((k) => junction.ends[k].absent).map(name);
      return `not joined: ${absent.join(' and ')} ${absent.length > 1 ? 'have' : 'has'} no direction`;
    }
    if (pair.reason === REASON.NOT_QUALIFYING) {
      if (Number.isNaN(pair.measure)) return 'not joined: their measure is no number';
      return `not joined: ${Words.measure(pair.measure)} is above the ${Words.limit(limit)}`;
    }
    const rank = pair.reason - REASON.BLOCKED;
    const [i, j] = junction.selected[rank];
    return (
      `not joined: ${Words.measure(pair.measure)} qualifies, but pair ${rank + 1}, ` +
      `${name(i)} with ${name(j)}, comes first`
    );
  }

  // Why line k and line k + 1 of a chain are joined: a word for it, a sentence, and the junction if there
  // is one.
  ofJoint(chain, k) {
    return this.ofEnds(this.network.jointKind(chain, k), ...this.network.jointEnds(chain, k));
  }

  // Why the last line of a chain is joined with its first, if it is.
  ofClosing(chain) {
    const { network } = this;
    const kind = network.chains.rings.get(chain);
    if (kind === undefined) return null;
    const path = network.pathOf(chain);
    const [first, last] = [path[0], path[path.length - 1]];
    return this.ofEnds(kind, { line: last.line, last: !last.turned }, { line: first.line, last: first.turned });
  }

  // Why two ends are joined, by what joined them.
  ofEnds(kind, a, b) {
    const { network } = this;
    const round = kind === JOINT.CELL || kind === JOINT.CELL_JUNCTION ? 1 : 0;
    if (kind === JOINT.PLACE || kind === JOINT.CELL) {
      const words = `${this.where(round, a, b, 2, null)}: joined at any angle.`;
      return { kind: round === 0 ? 'same place' : 'tolerance', words, junction: null, pair: null };
    }
    const { junction, place } = network.junctionAt(round, a);
    const pair = this.pairOf(junction, place, network.junctionAt(round, b).place);
    const words = this.ofPair(junction, pair, a, b);
    return { kind: round === 0 ? 'junction' : 'tolerance, junction', words, junction, pair };
  }

  // Why a pair of a junction is joined or not, in a sentence.
  ofPair(junction, pair, a = junction.ends[pair.i], b = junction.ends[pair.j]) {
    const where = this.where(junction.round, a, b, junction.ends.length, junction.number);
    return `${where}: ${this.verdict(junction, pair)}.`;
  }

  // Why a gap stayed open.
  ofGap(gap) {
    const [from, to] = gap.ends.map((end) => this.network.cellOf(end).join(' '));
    if (gap.why === 0) return `Its ends lie in two cells, ${from} and ${to}, however near they are.`;
    if (gap.why === 1) return `Its cell, ${from}, has three ends or more, and no pair was selected that closes it.`;
    return `Its ends are those of one chain, alone in cell ${from}: a chain is not joined with itself.`;
  }
}
