'use strict';

// Moves and zooms the map by mouse, by touch and by keys, and tells of clicks.

class Moving {
  constructor(canvas, view, painter, { click, hover, clear }) {
    Object.assign(this, { canvas, view, painter, click, hover, clear });
    this.pointers = new Map();
    this.moved = false;
    const on = (name, heed, options) => canvas.addEventListener(name, heed, options);
    on('pointerdown', (event) => this.down(event));
    on('pointermove', (event) => this.move(event));
    on('pointerup', (event) => this.up(event));
    on('pointercancel', (event) => this.up(event, true));
    on('pointerleave', () => this.hover(null));
    on('wheel', (event) => this.wheel(event), { passive: false });
    on('dblclick', (event) => this.zoom(2, event.offsetX, event.offsetY));
    on('keydown', (event) => this.key(event));
  }

  // How far a pointer may move in a click, in pixels.
  static get STILL() {
    return 5;
  }

  place(event) {
    const box = this.canvas.getBoundingClientRect();
    return [event.clientX - box.left, event.clientY - box.top];
  }

  down(event) {
    if (event.button > 0) return;
    this.canvas.setPointerCapture(event.pointerId);
    this.pointers.set(event.pointerId, this.place(event));
    if (this.pointers.size === 1) {
      this.moved = false;
      this.from = this.place(event);
    } else {
      this.moved = true;
    }
    this.hover(null);
  }

  move(event) {
    const now = this.place(event);
    const last = this.pointers.get(event.pointerId);
    if (last === undefined) {
      if (event.pointerType === 'mouse') this.hover(now);
      return;
    }
    const far = Math.hypot(now[0] - this.from[0], now[1] - this.from[1]) > Moving.STILL;
    if (!this.moved && !far) return;
    if (!this.moved) {
      this.moved = true;
      this.canvas.classList.add('moving');
    }
    const before = this.spread();
    this.pointers.set(event.pointerId, now);
    const after = this.spread();
    this.view.move(after.middle[0] - before.middle[0], after.middle[1] - before.middle[1]);
    if (before.width > 0 && after.width > 0) this.view.zoom(after.width / before.width, ...after.middle);
    this.painter.ask();
  }

  // The middle of the pointers, and how far apart two of them are.
  spread() {
    const [a, b] = [...this.pointers.values()];
    if (b === undefined) return { middle: a, width: 0 };
    const middle = [(a[0] + b[0]) / 2, (a[1] + b[1]) / 2];
    return { middle, width: Math.hypot(a[0] - b[0], a[1] - b[1]) };
  }

  up(event, ended = false) {
    const known = this.pointers.delete(event.pointerId);
    this.canvas.classList.remove('moving');
    if (!known || ended || this.moved || this.pointers.size > 0) return;
    const [left, top] = this.place(event);
    this.click(left, top, event.pointerType === 'mouse' ? 9 : 20);
  }

  wheel(event) {
    event.preventDefault();
    const pixels = event.deltaY * [1, 18, 300][event.deltaMode];
    this.zoom(Math.exp(-Math.max(-300, Math.min(pixels, 300)) / (event.ctrlKey ? 150 : 420)), ...this.place(event));
  }

  zoom(factor, left, top) {
    this.view.zoom(factor, left, top);
    this.painter.ask();
  }

  showAll() {
    this.view.showAll();
    this.painter.ask();
  }

  key(event) {
    if (event.ctrlKey || event.metaKey || event.altKey) return;
    const step = event.shiftKey ? 240 : 60;
    const heed = {
      ArrowLeft: () => this.view.move(step, 0),
      ArrowRight: () => this.view.move(-step, 0),
      ArrowUp: () => this.view.move(0, step),
      ArrowDown: () => this.view.move(0, -step),
      '+': () => this.view.zoom(1.4),
      '=': () => this.view.zoom(1.4),
      '-': () => this.view.zoom(1 / 1.4),
      0: () => this.view.showAll(),
      Escape: () => this.clear(),
      Enter: () => this.click(this.view.width / 2, this.view.height / 2, 30),
    }[event.key];
    if (heed === undefined) return;
    event.preventDefault();
    heed();
    this.painter.ask();
  }
}
