'use strict';

// Where the map's points lie on the screen: a place in the middle, and how many pixels a unit has.

class View {
  constructor(network) {
    this.bounds = network.bounds || [0, 0, 1, 1];
    const [west, south, east, north] = this.bounds;
    // Degrees of longitude are shorter than those of latitude.
    const middle = ((south / 2 + north / 2) * Math.PI) / 180;
    this.narrow = network.data.measure.degrees ? Math.max(Math.cos(middle), 0.01) : 1;
    this.width = 1;
    this.height = 1;
    this.middle = [west / 2 + east / 2, south / 2 + north / 2];
    // Pixels for two units. Halves are subtracted throughout, so that no difference is beyond the largest
    // number.
    this.scale = 1;
    this.fits = 1;
  }

  // Takes the size of the screen.
  resize(width, height) {
    this.width = Math.max(width, 1);
    this.height = Math.max(height, 1);
    this.fits = this.fitting(this.bounds, 0.92);
  }

  // The scale at which a box takes a part of the screen.
  fitting([west, south, east, north], part) {
    const across = (this.width * part) / 2 / ((east / 2 - west / 2) * this.narrow);
    const up = (this.height * part) / 2 / (north / 2 - south / 2);
    const scale = 2 * Math.min(across, up);
    return Number.isFinite(scale) && scale > 0 ? scale : 2;
  }

  // Shows a box. A small one is not shown larger than a few times what one sees of its surroundings.
  show([west, south, east, north], part = 0.8, most = 2000) {
    this.middle = [west / 2 + east / 2, south / 2 + north / 2];
    const point = west === east && south === north;
    const scale = point ? this.fits * 40 : this.fitting([west, south, east, north], part);
    this.scale = Math.min(scale, this.fits * most);
  }

  showAll() {
    this.show(this.bounds, 0.92);
    this.scale = this.fits;
  }

  place(x, y) {
    return [
      this.width / 2 + (x / 2 - this.middle[0] / 2) * this.scale * this.narrow,
      this.height / 2 - (y / 2 - this.middle[1] / 2) * this.scale,
    ];
  }

  // The point at a place of the screen.
  point(left, top) {
    return [
      this.middle[0] + ((left - this.width / 2) / this.scale / this.narrow) * 2,
      this.middle[1] - ((top - this.height / 2) / this.scale) * 2,
    ];
  }

  // The box of points that are seen, with so many pixels around.
  box(around = 0) {
    const [west, north] = this.point(-around, -around);
    const [east, south] = this.point(this.width + around, this.height + around);
    return [west, south, east, north];
  }

  move(right, down) {
    this.middle[0] -= (right / this.scale / this.narrow) * 2;
    this.middle[1] += (down / this.scale) * 2;
    this.hold();
  }

  // Keeps the middle of the screen within the bounds, so that nobody gets lost.
  hold() {
    const [west, south, east, north] = this.bounds;
    this.middle[0] = Math.min(Math.max(this.middle[0], west), east);
    this.middle[1] = Math.min(Math.max(this.middle[1], south), north);
  }

  // Zooms so that the point at a place of the screen stays there.
  zoom(factor, left = this.width / 2, top = this.height / 2) {
    const before = this.point(left, top);
    const scale = this.scale * factor;
    const least = this.fits / 4;
    this.scale = Math.min(Math.max(scale, least), this.fits * 1e9);
    if (!Number.isFinite(this.scale)) this.scale = this.fits;
    const after = this.point(left, top);
    this.middle[0] += before[0] - after[0];
    this.middle[1] += before[1] - after[1];
    this.hold();
  }

  // The pixels of a length, along x and along y.
  pixels(length) {
    return [(length / 2) * this.scale * this.narrow, (length / 2) * this.scale];
  }

  copy() {
    return { middle: this.middle.slice(), scale: this.scale, width: this.width, height: this.height };
  }
}
