'use strict';

// The search: lines by their names, and chains, junctions, bridges and gaps by their numbers.

class Search {
  constructor(network, form, input, found) {
    Object.assign(this, { network, input, found });
    this.names = null;
    this.hits = [];
    this.at = -1;
    input.addEventListener('input', () => this.look());
    input.addEventListener('focus', () => this.look());
    input.addEventListener('keydown', (event) => this.key(event));
    form.addEventListener('submit', (event) => {
      event.preventDefault();
      this.take(Math.max(this.at, 0));
    });
    document.addEventListener('pointerdown', (event) => {
      if (!form.contains(event.target)) this.close();
    });
  }

  static get MOST() {
    return 12;
  }

  // What a text finds: something by its number, and the lines whose names are it, begin with it or have it.
  find(text) {
    const sought = text.trim().toLowerCase();
    if (sought === '') return [];
    const hits = this.numbered(sought);
    if (this.names === null) {
      const { count } = this.network.lines;
      this.names = Array.from({ length: count }, (_, line) => this.network.label(line).toLowerCase());
    }
    const tests = [(name) => name === sought, (name) => name.startsWith(sought), (name) => name.includes(sought)];
    const taken = new Set();
    for (const test of tests) {
      for (let line = 0; line < this.names.length && hits.length < Search.MOST; line += 1) {
        if (taken.has(line) || !test(this.names[line])) continue;
        taken.add(line);
        const label = this.network.label(line);
        const words = `${label} · chain ${this.network.chainOf[line]}`;
        hits.push({ words, link: `line=${encodeURIComponent(label)}` });
      }
    }
    return hits;
  }

  numbered(words) {
    const [, kind, number] = /^(chain|junction|bridge|gap)\s*(\d+)$/.exec(words) || [];
    if (kind === undefined) return [];
    const { chains, junctions, bridges, gaps } = this.network;
    const counts = { chain: chains.count, junction: junctions.length, bridge: bridges.length, gap: gaps.length };
    return Number(number) < counts[kind] ? [{ words: `${kind} ${number}`, link: `${kind}=${number}` }] : [];
  }

  look() {
    this.hits = this.find(this.input.value);
    this.at = -1;
    const nothing = this.input.value.trim() !== '' && this.hits.length === 0;
    const items = this.hits.map(({ words }, k) => {
      return make('li', { role: 'option', id: `found-${k}`, on: { click: () => this.take(k) } }, words);
    });
    this.found.replaceChildren(...items);
    if (nothing) this.found.append(make('li', { class: 'nothing' }, 'Nothing has this name.'));
    this.found.hidden = items.length === 0 && !nothing;
    this.input.setAttribute('aria-expanded', String(!this.found.hidden));
  }

  key(event) {
    if (event.key === 'Escape') this.close();
    const step = { ArrowDown: 1, ArrowUp: -1 }[event.key];
    if (step === undefined || this.hits.length === 0) return;
    event.preventDefault();
    this.at = (this.at + step + this.hits.length) % this.hits.length;
    [...this.found.children].forEach((item, k) => item.setAttribute('aria-selected', String(k === this.at)));
    this.input.setAttribute('aria-activedescendant', `found-${this.at}`);
  }

  take(k) {
    if (this.hits[k] === undefined) return;
    location.hash = this.hits[k].link;
    this.input.value = '';
    this.close();
    this.input.blur();
  }

  close() {
    this.found.hidden = true;
    this.input.setAttribute('aria-expanded', 'false');
    this.input.removeAttribute('aria-activedescendant');
  }
}
