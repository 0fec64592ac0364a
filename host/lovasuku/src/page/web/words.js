'use strict';

// Numbers and names in words, as the command writes them.

class Words {
  // A number by the fewest digits that are read back as the same one.
  static number(x) {
    if (Object.is(x, -0)) return '-0';
    return String(x).replace('e+', 'e');
  }

  // A place: its x and its y.
  static place([x, y]) {
    return `${Words.number(x)} ${Words.number(y)}`;
  }

  // A number to so many digits, or to whole units where these are more.
  static toDigits(x, digits) {
    if (Math.abs(x) >= 1e15) return x.toExponential(2).replace('e+', 'e');
    const whole = Math.floor(Math.log10(Math.max(Math.abs(x), 1e-12)));
    const decimals = Math.min(Math.max(digits - 1 - whole, 0), 17);
    const text = (x + 0).toFixed(decimals);
    const short = text.includes('.') ? text.replace(/0+$/, '').replace(/\.$/, '') : text;
    return short === '-0' ? '0' : short;
  }

  // A length to six digits.
  static rounded(x) {
    return Words.toDigits(x, 6);
  }

  // A whole number with its thousands parted.
  static parted(x) {
    return String(x).replace(/\B(?=(\d{3})+$)/g, ',');
  }

  // A number of things.
  static count(x, thing) {
    const many = thing.endsWith('s') ? 'es' : 's';
    return `${Words.parted(x)} ${thing}${x === 1 ? '' : many}`;
  }

  // The bend in degrees that a measure or a limit stands for: 0 is straight on.
  static bendOf(measure) {
    return (Math.acos(-measure) * 180) / Math.PI;
  }

  // The limit that a bend in degrees stands for.
  static limitOfBend(degrees) {
    if (degrees === 60) return -0.5;
    if (degrees === 120) return 0.5;
    if (degrees >= 180) return 1;
    return Math.min(Math.max(Math.sin(((degrees - 90) * Math.PI) / 180), -1), 1);
  }

  static degrees(measure) {
    return `${Words.rounded(Words.bendOf(measure))}°`;
  }

  // A measure as a number and as degrees.
  static measure(x) {
    return `measure ${Words.number(x)} (a bend of ${Words.degrees(x)})`;
  }

  // A limit as a number and as degrees.
  static limit(x) {
    return `limit ${Words.number(x)} (${Words.degrees(x)})`;
  }

  // A value of a property, of which a text is shown without its quotes.
  static value(written) {
    if (!written.startsWith('"')) return written;
    try {
      return JSON.parse(written);
    } catch (fault) {
      return written;
    }
  }
}
