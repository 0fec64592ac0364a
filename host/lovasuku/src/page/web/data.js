'use strict';

// Reads the page's data: the numbers that stand in it as text, with every bit of every double.

// The bytes of a text in base64.
function bytesOf(text) {
  const raw = atob(text);
  const bytes = new Uint8Array(raw.length);
  for (let k = 0; k < raw.length; k += 1) bytes[k] = raw.charCodeAt(k);
  return bytes;
}

// Reads whole numbers, seven bits a byte, the lowest first.
class Reader {
  constructor(text) {
    this.bytes = bytesOf(text);
    this.at = 0;
  }

  get more() {
    return this.at < this.bytes.length;
  }

  // A whole number below 2^53.
  number() {
    let sum = 0;
    let power = 1;
    for (;;) {
      const byte = this.bytes[this.at];
      this.at += 1;
      sum += (byte & 127) * power;
      if (byte < 128) return sum;
      power *= 128;
    }
  }

  // A whole number of either sign: 0, 1, 2, 3 .. stand for 0, -1, 1, -2 ..
  signed() {
    return unzigzag(this.number());
  }

  // The same for 64 bits.
  signedWord() {
    let low = 0;
    let power = 1;
    let bytes = 0;
    let high = 0n;
    for (;;) {
      const byte = this.bytes[this.at];
      this.at += 1;
      if (bytes < 7) {
        low += (byte & 127) * power;
        power *= 128;
      } else {
        high |= BigInt(byte & 127) << BigInt(7 * bytes);
      }
      bytes += 1;
      if (byte < 128) break;
    }
    const word = high | BigInt(low);
    return (word >> 1n) ^ -(word & 1n);
  }

  doubles() {
    return new Float64Array(this.bytes.buffer);
  }
}

function unzigzag(number) {
  return number % 2 === 1 ? -(number + 1) / 2 : number / 2;
}

class Data {
  // The lines: the runs of points of each, one behind another, and whether it is a single line that may
  // be joined.
  static shapes(told) {
    const counts = new Reader(told.counts);
    const runs = [0];
    const firsts = [0];
    const single = [];
    while (counts.more) {
      const head = counts.number();
      single.push(head % 2 === 0 ? 1 : 0);
      const lengths = [];
      if (head % 2 === 0) lengths.push(head / 2);
      else for (let k = (head - 1) / 2; k > 0; k -= 1) lengths.push(counts.number());
      for (const length of lengths) runs.push(runs[runs.length - 1] + length);
      firsts.push(runs.length - 1);
    }
    const points = Data.pointsOf(told, runs[runs.length - 1]);
    return {
      count: single.length,
      // Run r has the points from runs[r] to runs[r + 1], line k the runs from firsts[k] to firsts[k + 1].
      runs: Uint32Array.from(runs),
      firsts: Uint32Array.from(firsts),
      single: Uint8Array.from(single),
      x: points[0],
      y: points[1],
    };
  }

  // x and y of so many points: whole numbers of a decimal, or bits, each as the difference from the last.
  static pointsOf(told, count) {
    const reader = new Reader(told.points);
    const axes = [new Float64Array(count), new Float64Array(count)];
    if (told.decimals === null) {
      const bits = axes.map((axis) => new BigInt64Array(axis.buffer));
      const last = [0n, 0n];
      for (let k = 0; k < count; k += 1) {
        for (let axis = 0; axis < 2; axis += 1) {
          last[axis] = BigInt.asIntN(64, last[axis] + reader.signedWord());
          bits[axis][k] = last[axis];
        }
      }
      return axes;
    }
    // A power of ten up to 22 is a double, and the quotient of two doubles is rounded once.
    const power = Number(`1e${told.decimals}`);
    const last = [0, 0];
    for (let k = 0; k < count; k += 1) {
      for (let axis = 0; axis < 2; axis += 1) {
        last[axis] += reader.signed();
        axes[axis][k] = last[axis] / power;
      }
    }
    return axes;
  }

  // The chains: the lines of chain k are those from starts[k] to starts[k + 1] of the path.
  static chains(told, lines) {
    const reader = new Reader(told.paths);
    const starts = [0];
    const path = new Uint32Array(lines);
    const turned = new Uint8Array(lines);
    let at = 0;
    let last = 0;
    while (reader.more) {
      for (let left = reader.number(); left > 0; left -= 1) {
        const word = reader.number();
        turned[at] = word % 2;
        last += unzigzag(Math.floor(word / 2));
        path[at] = last;
        at += 1;
      }
      starts.push(at);
    }
    const loops = new Set();
    const steps = new Reader(told.loops);
    for (let chain = 0; steps.more; ) {
      chain += steps.number();
      loops.add(chain);
    }
    const rings = new Map();
    const closings = new Reader(told.rings);
    for (let chain = 0; closings.more; ) {
      chain += closings.number();
      rings.set(chain, closings.number());
    }
    const joints = new Reader(told.joints).bytes;
    return { count: starts.length - 1, starts: Uint32Array.from(starts), path, turned, joints, loops, rings };
  }

  // The junctions: their ends, the selected pairs in order, and of every pair the measure and the library's
  // reason; of junctions that are not told whole the measures of the selected pairs alone.
  static junctions(told) {
    const reader = new Reader(told.numbers);
    const measures = new Reader(told.measures).doubles();
    const all = [];
    let last = 0;
    let measured = 0;
    while (reader.more) {
      const head = reader.number();
      const count = Math.floor(head / 4);
      const whole = Math.floor(head / 2) % 2 === 1;
      const ends = [];
      for (let k = 0; k < count; k += 1) {
        const word = reader.number();
        last += unzigzag(Math.floor(word / 2));
        ends.push({ line: Math.floor(last / 2), last: last % 2 === 1, absent: word % 2 === 1 });
      }
      const selected = [];
      for (let left = reader.number(); left > 0; left -= 1) {
        selected.push([reader.number(), reader.number()]);
      }
      const pairs = whole ? (count * (count - 1)) / 2 : selected.length;
      const reasons = [];
      for (let k = 0; whole && k < pairs; k += 1) reasons.push(reader.number());
      const own = measures.subarray(measured, measured + pairs);
      measured += pairs;
      all.push({ number: all.length, round: head % 2, ends, selected, whole, reasons, measures: own });
    }
    return all;
  }

  static gaps(told) {
    const reader = new Reader(told.numbers);
    const ends = new Reader(told.ends).doubles();
    const all = [];
    while (reader.more) {
      const k = 4 * all.length;
      all.push({
        chains: [reader.number(), reader.number()],
        lines: [reader.number(), reader.number()],
        why: reader.number(),
        ends: [[ends[k], ends[k + 1]], [ends[k + 2], ends[k + 3]]],
      });
    }
    return all;
  }

  static columns(told) {
    const column = ({ name, values, of }) => {
      const reader = new Reader(of);
      const numbers = [];
      while (reader.more) numbers.push(reader.number());
      return { name, values, of: Uint32Array.from(numbers) };
    };
    return { columns: told.columns.map(column), left: told.left };
  }

  // All that a text tells.
  static read(text) {
    const told = JSON.parse(text);
    const lines = Data.shapes(told.shapes);
    return {
      version: told.version,
      input: told.input,
      measure: told.measure,
      settings: told.settings,
      rows: told.rows,
      window: told.window,
      warnings: told.warnings,
      names: told.names,
      parts: told.parts,
      classes: told.classes,
      lines,
      chains: Data.chains(told.chains, lines.count),
      junctions: Data.junctions(told.junctions),
      gaps: Data.gaps(told.gaps),
      properties: Data.columns(told.properties),
    };
  }
}
