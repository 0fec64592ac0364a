'use strict';

// What the panel tells of the whole: what was joined and how, where one has to look, and what a stricter
// limit would leave.

class Overview {
  constructor(network, whatif, changed) {
    Object.assign(this, { network, whatif, changed });
    this.slider = whatif.asks ? this.makeSlider() : null;
  }

  // How many items of a list are shown at first.
  static get SHOWN() {
    return 8;
  }

  tally() {
    const { network } = this;
    return `${Words.count(network.lines.count, 'line')} joined into ${Words.count(network.chains.count, 'chain')}`;
  }

  // What the panel shows.
  elements() {
    return [
      make('p', { class: 'lead' }, 'Click a chain, a junction or a bridge, or search a line, and read why it is so.'),
      ...this.places(),
      ...(this.slider === null ? [] : [this.slider]),
      make('h2', {}, 'Settings'),
      table(this.facts()),
    ];
  }

  // The places that one has to look at.
  places() {
    const { network } = this;
    const { bridges, gaps, junctions, chains, settings } = network;
    const longest = bridges.slice().sort((a, b) => b.length - a.length);
    const parts = [];
    const add = (words, items, item) => {
      parts.push(make('h2', {}, words), list(items, Overview.SHOWN, item));
    };
    if (bridges.length > 0) {
      add(`${Words.count(bridges.length, 'bridge')}, longest first`, longest, (bridge) => this.bridge(bridge));
    } else if (settings.tolerance > 0) {
      parts.push(make('p', {}, 'The tolerance made no bridge: every segment is of the input.'));
    }
    if (gaps.length > 0) {
      const shortest = gaps.map((gap, number) => ({ ...gap, number, length: network.distance(...gap.ends) }));
      shortest.sort((a, b) => a.length - b.length);
      add(`${Words.count(gaps.length, 'gap')} below the tolerance that stayed open`, shortest, (gap) => this.gap(gap));
    }
    const loops = [...chains.loops];
    if (junctions.length > 0) {
      add(Words.count(junctions.length, 'junction'), junctions, (junction) => this.junction(junction));
    }
    if (loops.length > 0) {
      add(Words.count(loops.length, 'loop'), loops, (chain) => this.loop(chain));
    }
    return parts;
  }

  bridge({ number, chain, length, ends }) {
    const [a, b] = ends.map(({ line }) => this.network.label(line));
    const words = ` ${this.network.lengthWords(length)}, ${a} to ${b}, `;
    return make('li', {}, linkTo('bridge', number), words, linkTo('chain', chain));
  }

  gap({ number, lines, length }) {
    const [a, b] = lines.map((line) => this.network.label(line));
    return make('li', {}, linkTo('gap', number), ` ${this.network.lengthWords(length)}, ${a} to ${b}`);
  }

  junction({ number, ends, selected, round }) {
    const words = ` ${ends.length} ends, ${selected.length} selected${round === 1 ? ', round two' : ''}`;
    return make('li', {}, linkTo('junction', number), words);
  }

  loop(chain) {
    return make('li', {}, linkTo('chain', chain), ` ${this.network.lengthWords(this.network.lengthOfChain(chain))}`);
  }

  // What is told of the run: its settings, its input and its version.
  facts() {
    const { data } = this.network;
    const rows = data.rows.slice();
    rows.unshift(['Input', data.input.name]);
    rows.push(['Reference system', data.input.crs === null ? 'none is named' : data.input.crs]);
    rows.push(['SHA-256 of the input', make('code', {}, data.input.checksum)]);
    rows.push(['Version', `lovasuku ${data.version}`]);
    const { left } = data.properties;
    if (left.length > 0) rows.push(['Not in this page', `for its size, the properties ${left.join(', ')}`]);
    for (const warning of data.warnings) rows.push(['Warning', warning]);
    return rows;
  }

  // The slider for a stricter limit.
  makeSlider() {
    const { whatif } = this;
    const most = Words.bendOf(whatif.limit);
    const words = make('p', { id: 'stands', role: 'status' }, whatif.words());
    const shown = make('output', { for: 'limit' });
    const slider = make('input', { id: 'limit', type: 'range', min: 0, max: most, step: 'any', value: most });
    const tell = () => {
      const degrees = Number(slider.value);
      whatif.at(degrees >= most ? whatif.limit : Words.limitOfBend(degrees));
      shown.textContent = Words.limit(whatif.asked);
      slider.setAttribute('aria-valuetext', shown.textContent);
      words.textContent = whatif.words();
    };
    slider.addEventListener('input', () => {
      tell();
      this.changed();
    });
    tell();
    return make(
      'section', { class: 'whatif' },
      make('h2', {}, 'What if the limit were stricter?'),
      make('label', { for: 'limit' }, 'Pairs of junctions up to '), shown, slider, words,
    );
  }
}
