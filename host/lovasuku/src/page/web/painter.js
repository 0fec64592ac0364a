'use strict';

// Paints the map: all lines on a sheet of their own, which is moved and stretched while the view changes
// and painted anew in steps, so that moving stays smooth however many lines there are; and over it, each
// time, what is marked. A browser paints later than it is told to, so that a step is as many lines as the
// frames before it had time for.

// How many colours chains have.
const PALETTE = 6;

class Painter {
  constructor(canvas, network, grid, view, marks) {
    Object.assign(this, { canvas, network, grid, view, marks });
    this.context = canvas.getContext('2d');
    this.colours = this.coloursOfChains();
    this.rankLines();
    this.sheet = null;
    this.job = null;
    this.spare = null;
    this.asked = false;
    this.theme = {};
    this.lines = 8000;
    this.last = 0;
  }

  // How many pixels of lines are painted around what is seen, as a part of it.
  static get AROUND() {
    return 0.3;
  }

  // The colour of each chain by its number in the palette. Chains that meet have different ones. 0 is that
  // of chains of one line.
  coloursOfChains() {
    const { network } = this;
    const colours = new Uint8Array(network.chains.count);
    const met = new Map();
    let next = 0;
    for (let chain = 0; chain < network.chains.count; chain += 1) {
      if (network.countOf(chain) < 2) continue;
      const keys = [];
      for (const { line } of network.pathOf(chain)) {
        for (const last of [false, true]) keys.push(network.placeOf({ line, last }).join());
      }
      const near = new Set();
      for (const key of keys) for (const colour of met.get(key) || []) near.add(colour);
      let colour = next;
      for (let k = 0; k < PALETTE && near.has(colour); k += 1) colour = (colour + 1) % PALETTE;
      for (const key of keys) met.set(key, (met.get(key) || []).concat(colour));
      colours[chain] = colour + 1;
      next = (colour + 1) % PALETTE;
    }
    return colours;
  }

  // The order in which lines are painted: by the colours of their chains.
  rankLines() {
    const { count } = this.network.lines;
    const colour = (line) => this.colours[this.network.chainOf[line]];
    const lines = Uint32Array.from({ length: count }, (_, line) => line);
    this.order = lines.sort((a, b) => colour(a) - colour(b) || a - b);
    this.ranks = new Uint32Array(count);
    this.order.forEach((line, rank) => {
      this.ranks[line] = rank;
    });
  }

  // Reads the colours of the style.
  dress() {
    const style = getComputedStyle(document.documentElement);
    const read = (name) => style.getPropertyValue(`--${name}`).trim();
    const names = ['paper', 'ink', 'faint', 'alone', 'bridge', 'gap', 'gap-edge', 'loop', 'picked', 'cell'];
    names.push('falls', 'window');
    this.theme = Object.fromEntries(names.map((name) => [name, read(name)]));
    this.theme.chains = [this.theme.alone];
    for (let k = 1; k <= PALETTE; k += 1) this.theme.chains.push(read(`chain-${k}`));
    this.sheet = null;
    this.ask();
  }

  // Takes the size of the canvas on the screen.
  resize(width, height, ratio) {
    this.ratio = ratio;
    this.canvas.width = Math.round(width * ratio);
    this.canvas.height = Math.round(height * ratio);
    this.view.resize(width, height);
    this.sheet = null;
    this.ask();
  }

  // Asks for a frame.
  ask() {
    if (this.asked) return;
    this.asked = true;
    requestAnimationFrame((now) => {
      this.asked = false;
      this.pace(now);
      this.frame();
    });
  }

  // Takes fewer lines for a step where the last frame took long, and more where it did not.
  pace(now) {
    const took = now - this.last;
    this.last = now;
    if (this.job === null || took > 1000) return;
    if (took > 40) this.lines = Math.max(this.lines / 2, 500);
    if (took < 20) this.lines = Math.min(this.lines * 1.5, 50000);
  }

  // Paints a frame: what there is of the lines, and a step more where the view has changed.
  frame() {
    if (!this.current() && this.job === null) this.begin();
    if (this.job !== null) this.step(this.lines);
    const { context, view, ratio } = this;
    context.setTransform(1, 0, 0, 1, 0, 0);
    context.fillStyle = this.theme.paper;
    context.fillRect(0, 0, this.canvas.width, this.canvas.height);
    context.setTransform(ratio, 0, 0, ratio, 0, 0);
    this.marks.paintBelow(context, view, this.theme);
    context.setTransform(1, 0, 0, 1, 0, 0);
    this.lay(this.sheet || this.job);
    context.setTransform(ratio, 0, 0, ratio, 0, 0);
    this.marks.paint(context, view, this.theme);
    if (this.job !== null || !this.current()) this.ask();
  }

  // Paints everything at once, for printing.
  whole() {
    this.sheet = null;
    this.job = null;
    this.begin();
    while (this.job !== null) this.step(Infinity);
    this.frame();
  }

  // True where the sheet is of the view.
  current() {
    const { sheet, view } = this;
    if (sheet === null) return false;
    const { middle, scale, width, height } = sheet.view;
    const same = middle[0] === view.middle[0] && middle[1] === view.middle[1] && scale === view.scale;
    return same && width === view.width && height === view.height;
  }

  // Lays a sheet on the canvas, moved and stretched to the view.
  lay(sheet) {
    if (sheet === null) return;
    const { context, view, ratio } = this;
    const factor = view.scale / sheet.view.scale;
    const [left, top] = view.place(sheet.view.middle[0], sheet.view.middle[1]);
    const width = sheet.canvas.width * factor;
    const height = sheet.canvas.height * factor;
    context.drawImage(sheet.canvas, left * ratio - width / 2, top * ratio - height / 2, width, height);
  }

  // Begins a sheet of the view.
  begin() {
    const { view, ratio } = this;
    const part = 1 + 2 * Painter.AROUND;
    const canvas = this.spare || document.createElement('canvas');
    this.spare = null;
    // This clears it too.
    canvas.width = Math.round(this.canvas.width * part);
    canvas.height = Math.round(this.canvas.height * part);
    const context = canvas.getContext('2d');
    const [left, top] = [canvas.width - this.canvas.width, canvas.height - this.canvas.height];
    context.setTransform(ratio, 0, 0, ratio, left / 2, top / 2);
    context.lineJoin = 'round';
    context.lineCap = 'round';
    const ranks = [];
    const around = Painter.AROUND * Math.max(view.width, view.height);
    this.grid.within(view.box(around), (line) => ranks.push(this.ranks[line]));
    const lines = Uint32Array.from(ranks).sort().map((rank) => this.order[rank]);
    this.job = { canvas, context, view: view.copy(), lines, at: 0, fine: lines.length > 4000 };
  }

  // Goes on with the sheet for so many lines.
  step(lines) {
    const { job } = this;
    const until = Math.min(job.at + lines, job.lines.length);
    while (job.at < until) this.paintSome(job, Math.min(job.at + 400, until));
    if (job.at < job.lines.length) return;
    if (this.sheet !== null) this.spare = this.sheet.canvas;
    this.sheet = job;
    this.job = null;
  }

  // Paints the next lines that have one colour, up to one.
  paintSome(job, until) {
    const { network, colours, theme } = this;
    const colourOf = (line) => colours[network.chainOf[line]];
    const colour = colourOf(job.lines[job.at]);
    const { context } = job;
    context.beginPath();
    for (; job.at < until && colourOf(job.lines[job.at]) === colour; job.at += 1) {
      this.trace(context, job.lines[job.at], job.view);
    }
    context.strokeStyle = theme.chains[colour];
    context.lineWidth = (colour === 0 ? 1.3 : 2.6) * (job.fine ? 0.6 : 1);
    context.stroke();
  }

  // Adds a line to a path. Points that lie on one pixel are passed over.
  trace(context, line, { middle, scale, width, height }) {
    const { x, y, firsts, runs } = this.network.lines;
    const across = scale * this.view.narrow;
    for (let run = firsts[line]; run < firsts[line + 1]; run += 1) {
      const first = runs[run];
      const after = runs[run + 1];
      let lastX = NaN;
      let lastY = NaN;
      for (let k = first; k < after; k += 1) {
        const left = width / 2 + (x[k] / 2 - middle[0] / 2) * across;
        const top = height / 2 - (y[k] / 2 - middle[1] / 2) * scale;
        const near = Math.abs(left - lastX) < 0.7 && Math.abs(top - lastY) < 0.7;
        if (near && k + 1 < after) continue;
        if (k === first) context.moveTo(left, top);
        else context.lineTo(left, top);
        lastX = left;
        lastY = top;
      }
    }
  }
}
