'use strict';

// Which lines lie where: a grid over the network with the lines that reach into each of its squares.

class Grid {
  constructor(network) {
    this.network = network;
    this.side = Math.max(1, Math.min(256, Math.ceil(Math.sqrt(network.lines.count / 2))));
    const [west, south, east, north] = network.bounds || [0, 0, 1, 1];
    this.corner = [west, south];
    this.size = [(east / 2 - west / 2) / this.side || 1, (north / 2 - south / 2) / this.side || 1];
    this.seen = new Uint32Array(network.lines.count);
    this.round = 0;
    this.fill();
  }

  // Puts each line into the squares of its extent. Those of many squares are looked at always.
  fill() {
    const most = 4 * this.side;
    const counts = new Uint32Array(this.side * this.side + 1);
    this.large = [];
    const each = (put) => {
      for (let line = 0; line < this.network.lines.count; line += 1) {
        const range = this.rangeOf(this.network.boxes.subarray(4 * line, 4 * line + 4));
        if (range !== null) put(line, range);
      }
    };
    each((line, range) => {
      if (range.squares > most) this.large.push(line);
      else this.squares(range, (square) => (counts[square + 1] += 1));
    });
    for (let k = 1; k < counts.length; k += 1) counts[k] += counts[k - 1];
    this.firsts = counts.slice();
    this.members = new Uint32Array(counts[counts.length - 1]);
    each((line, range) => {
      if (range.squares > most) return;
      this.squares(range, (square) => {
        this.members[counts[square]] = line;
        counts[square] += 1;
      });
    });
  }

  // The squares that a box reaches into.
  rangeOf([west, south, east, north]) {
    if (!(west <= east)) return null;
    const square = (x, axis) => {
      const k = Math.floor((x / 2 - this.corner[axis] / 2) / this.size[axis]);
      return Math.max(0, Math.min(this.side - 1, k || 0));
    };
    const range = { west: square(west, 0), south: square(south, 1), east: square(east, 0), north: square(north, 1) };
    range.squares = (range.east - range.west + 1) * (range.north - range.south + 1);
    return range;
  }

  squares({ west, south, east, north }, visit) {
    for (let row = south; row <= north; row += 1) {
      for (let column = west; column <= east; column += 1) visit(row * this.side + column);
    }
  }

  // Visits each line whose extent meets a box, once.
  within(box, visit) {
    this.round += 1;
    const look = (line) => {
      if (this.seen[line] === this.round) return;
      this.seen[line] = this.round;
      if (this.network.meets(line, box)) visit(line);
    };
    this.large.forEach(look);
    const range = this.rangeOf(box);
    if (range === null) return;
    this.squares(range, (square) => {
      for (let k = this.firsts[square]; k < this.firsts[square + 1]; k += 1) look(this.members[k]);
    });
  }
}
