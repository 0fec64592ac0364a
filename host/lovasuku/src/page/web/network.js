'use strict';

// The network that the data tells of: lines and their ends, chains and what joined their lines, bridges,
// and which lines lie where.

const RADIUS = 6371008.8;

// What joined two lines that follow each other, as the data has it.
const JOINT = { PLACE: 0, CELL: 1, JUNCTION: 2, CELL_JUNCTION: 3 };

class Network {
  constructor(data) {
    this.data = data;
    this.lines = data.lines;
    this.chains = data.chains;
    this.junctions = data.junctions;
    this.gaps = data.gaps;
    this.settings = data.settings;
    this.measureChains();
    this.bridges = this.findBridges();
    this.meetAtJunctions();
    this.boxes = this.boxesOfLines();
    this.bounds = this.boundsOf(0, this.lines.count);
  }

  // Lines.

  // The name of a line for people.
  label(line) {
    const { names, parts } = this.data;
    const name = names === null ? String(line) : names[line];
    return parts === null ? name : `${name} part ${parts[line]}`;
  }

  // The words of an end of a line.
  endLabel({ line, last }) {
    return `${this.label(line)}'s ${last ? 'end' : 'start'}`;
  }

  // The runs of points of a line, each as its first point and the one behind its last.
  runsOf(line) {
    const { firsts, runs } = this.lines;
    const all = [];
    for (let run = firsts[line]; run < firsts[line + 1]; run += 1) all.push([runs[run], runs[run + 1]]);
    return all;
  }

  point(k) {
    return [this.lines.x[k], this.lines.y[k]];
  }

  // True where a line may be joined: a single line of two points or more.
  isPlain(line) {
    const [first, after] = this.runsOf(line)[0] || [0, 0];
    return this.lines.single[line] === 1 && after - first > 1;
  }

  // The place of an end of a line.
  placeOf({ line, last }) {
    const runs = this.runsOf(line).filter(([first, after]) => after > first);
    if (runs.length === 0) return null;
    return this.point(last ? runs[runs.length - 1][1] - 1 : runs[0][0]);
  }

  // The direction from an end into its line, on the map, towards the nearest point that differs.
  directionOf({ line, last }) {
    const [first, after] = this.runsOf(line)[0] || [0, 0];
    const { x, y } = this.lines;
    const step = last ? -1 : 1;
    const from = last ? after - 1 : first;
    for (let k = from + step; k >= first && k < after; k += step) {
      if (x[k] !== x[from] || y[k] !== y[from]) return [x[k] - x[from], y[k] - y[from]];
    }
    return null;
  }

  // The distance of two places: on the sphere where they are degrees.
  distance([x, y], [toX, toY]) {
    if (!this.data.measure.degrees) return Math.hypot(toX - x, toY - y);
    const radians = Math.PI / 180;
    const half = (from, to) => Math.sin(((to - from) * radians) / 2) ** 2;
    const square = half(y, toY) + Math.cos(y * radians) * Math.cos(toY * radians) * half(x, toX);
    return 2 * RADIUS * Math.asin(Math.sqrt(Math.min(Math.max(square, 0), 1)));
  }

  lengthOf(line) {
    let sum = 0;
    for (const [first, after] of this.runsOf(line)) {
      for (let k = first + 1; k < after; k += 1) sum += this.distance(this.point(k - 1), this.point(k));
    }
    return sum;
  }

  // A length in words.
  lengthWords(length) {
    return `${Words.rounded(length)} ${this.data.measure.unit}`;
  }

  classOf(line) {
    const { classes } = this.data;
    return classes === null ? null : classes.names[classes.of[line]];
  }

  // The properties of a line that the page holds: names and values as they are written.
  propertiesOf(line) {
    const all = [];
    for (const { name, values, of } of this.data.properties.columns) {
      if (of[line] > 0) all.push([name, Words.value(values[of[line] - 1])]);
    }
    return all;
  }

  // Chains.

  // The lines of a chain in the order of travel, each with whether it was drawn against it.
  pathOf(chain) {
    const { starts, path, turned } = this.chains;
    const all = [];
    for (let k = starts[chain]; k < starts[chain + 1]; k += 1) {
      all.push({ line: path[k], turned: turned[k] === 1 });
    }
    return all;
  }

  // What joined line k and line k + 1 of a chain.
  jointKind(chain, k) {
    return this.chains.joints[this.chains.starts[chain] - chain + k];
  }

  // The two ends of a joint: where the way leaves a line, and where it enters the next.
  jointEnds(chain, k) {
    const { starts, path, turned } = this.chains;
    const at = starts[chain] + k;
    return [
      { line: path[at], last: turned[at] === 0 },
      { line: path[at + 1], last: turned[at + 1] === 1 },
    ];
  }

  countOf(chain) {
    return this.chains.starts[chain + 1] - this.chains.starts[chain];
  }

  // The chain of each line, its place there, and the piece of round one that it is in.
  measureChains() {
    const { count, starts, path } = this.chains;
    this.chainOf = new Uint32Array(this.lines.count);
    this.pieceOf = new Uint32Array(this.lines.count);
    let piece = 0;
    for (let chain = 0; chain < count; chain += 1) {
      for (let k = 0; k < this.countOf(chain); k += 1) {
        const line = path[starts[chain] + k];
        const joint = k > 0 ? this.jointKind(chain, k - 1) : JOINT.CELL;
        if (joint === JOINT.CELL || joint === JOINT.CELL_JUNCTION) piece += 1;
        this.chainOf[line] = chain;
        this.pieceOf[line] = piece;
      }
    }
  }

  lengthOfChain(chain) {
    const lines = this.pathOf(chain).reduce((sum, { line }) => sum + this.lengthOf(line), 0);
    const own = this.bridgesOf(chain);
    return own.reduce((sum, bridge) => sum + this.bridges[bridge].length, lines);
  }

  // The joints that have a segment of no line, in the order of the chains.
  findBridges() {
    const all = [];
    this.firstBridges = [];
    for (let chain = 0; chain < this.chains.count; chain += 1) {
      this.firstBridges.push(all.length);
      for (let k = 0; k + 1 < this.countOf(chain); k += 1) {
        const kind = this.jointKind(chain, k);
        if (kind !== JOINT.CELL && kind !== JOINT.CELL_JUNCTION) continue;
        const ends = this.jointEnds(chain, k);
        const [from, to] = ends.map((end) => this.placeOf(end));
        if (from[0] === to[0] && from[1] === to[1]) continue;
        const length = this.distance(from, to);
        all.push({ number: all.length, chain, joint: k, ends, from, to, length });
      }
    }
    this.firstBridges.push(all.length);
    return all;
  }

  bridgesOf(chain) {
    const all = [];
    for (let k = this.firstBridges[chain]; k < this.firstBridges[chain + 1]; k += 1) all.push(k);
    return all;
  }

  bridgeAt(chain, joint) {
    const number = this.bridgesOf(chain).find((bridge) => this.bridges[bridge].joint === joint);
    return number === undefined ? null : this.bridges[number];
  }

  // The ends of the two lines that a gap lies between.
  endsOfGap(number) {
    const { lines, ends } = this.gaps[number];
    return lines.map((line, k) => {
      const [x, y] = this.placeOf({ line, last: false });
      return { line, last: x !== ends[k][0] || y !== ends[k][1] };
    });
  }

  // Junctions.

  // The junction of each end in each round, and its place there.
  meetAtJunctions() {
    const none = () => new Int32Array(2 * this.lines.count).fill(-1);
    this.junctionsAt = [none(), none()];
    this.placesAt = [none(), none()];
    for (const { number, round, ends } of this.junctions) {
      ends.forEach(({ line, last }, place) => {
        const end = 2 * line + (last ? 1 : 0);
        this.junctionsAt[round][end] = number;
        this.placesAt[round][end] = place;
      });
    }
  }

  // The junction of an end in a round, and its place there.
  junctionAt(round, { line, last }) {
    const end = 2 * line + (last ? 1 : 0);
    const number = this.junctionsAt[round][end];
    return number < 0 ? null : { junction: this.junctions[number], place: this.placesAt[round][end] };
  }

  // The middle of a junction's ends.
  middleOf(junction) {
    const places = junction.ends.map((end) => this.placeOf(end));
    const mean = (axis) => places.reduce((sum, place) => sum + place[axis] / places.length, 0);
    return [mean(0), mean(1)];
  }

  // The cell of a place, its column and its row.
  cellOf(place) {
    const { tolerance, origin } = this.settings;
    return place.map((x, axis) => {
      const floor = Math.floor((x - origin[axis]) / tolerance);
      if (Number.isSafeInteger(floor)) return floor;
      if (floor >= 2 ** 63) return 2n ** 63n - 1n;
      return floor < -(2 ** 63) ? -(2n ** 63n) : BigInt(floor);
    });
  }

  // Extents.

  // The least x and y and the greatest of each line; of one without points infinities the other way round.
  boxesOfLines() {
    const boxes = new Float64Array(4 * this.lines.count);
    const { x, y, firsts, runs, count } = this.lines;
    for (let line = 0; line < count; line += 1) {
      const box = [Infinity, Infinity, -Infinity, -Infinity];
      for (let k = runs[firsts[line]]; k < runs[firsts[line + 1]]; k += 1) {
        box[0] = Math.min(box[0], x[k]);
        box[1] = Math.min(box[1], y[k]);
        box[2] = Math.max(box[2], x[k]);
        box[3] = Math.max(box[3], y[k]);
      }
      boxes.set(box, 4 * line);
    }
    return boxes;
  }

  // The extent of the lines from one on to another.
  boundsOf(first, after) {
    const all = [];
    for (let line = first; line < after; line += 1) all.push(line);
    return this.extentOf(all);
  }

  // The extent of some lines; null where there is no point.
  extentOf(lines) {
    const box = [Infinity, Infinity, -Infinity, -Infinity];
    for (const line of lines) {
      box[0] = Math.min(box[0], this.boxes[4 * line]);
      box[1] = Math.min(box[1], this.boxes[4 * line + 1]);
      box[2] = Math.max(box[2], this.boxes[4 * line + 2]);
      box[3] = Math.max(box[3], this.boxes[4 * line + 3]);
    }
    return box[0] <= box[2] ? box : null;
  }

  // True where the extent of a line meets a box.
  meets(line, [west, south, east, north]) {
    const at = 4 * line;
    const { boxes } = this;
    return boxes[at] <= east && boxes[at + 2] >= west && boxes[at + 1] <= north && boxes[at + 3] >= south;
  }
}
