// Reads a log for what no report tells: what each site holds, asks for and gives back between the points.
"use strict";

const PIECE = 8 << 20;
const [SPACE, NEWLINE, BRACKET, AT, PLUS, MINUS, STAR, LESS, MORE, MARK] = Array.from(" \n(@+-*<>!", (letter) => letter.charCodeAt(0));
const DIGITS = new Int8Array(256).fill(-1);
Array.from("0123456789abcdef", (digit, value) => { DIGITS[digit.charCodeAt(0)] = value; });
const NO_EFFECT = " ! (nil) 0";

// A number by its halves of 32 bits.
function ofHalves(high, low) {
  return high < 1 << 21 ? high * 4294967296 + low : BigInt(high) << 32n | BigInt(low);
}

// The blocks that are held, by address: of each its size and its site. Addresses and sizes have two
// halves of 32 bits. Each stands in the first free row from that on which its hash tells.
class Held {
  constructor() {
    this.count = 0;
    this.begin(1 << 12);
  }

  begin(rows) {
    this.mask = rows - 1;
    this.high = new Uint32Array(rows);
    this.low = new Uint32Array(rows);
    this.sizesHigh = new Uint32Array(rows);
    this.sizesLow = new Uint32Array(rows);
    this.sites = new Int32Array(rows).fill(-1);
  }

  home(high, low) {
    const mixed = Math.imul(low, 0x9e3779b1) ^ Math.imul(high, 0x85ebca6b);
    return (mixed ^ mixed >>> 15) & this.mask;
  }

  // The row of an address, or the free one for it.
  rowOf(high, low) {
    let row = this.home(high, low);
    while (this.sites[row] >= 0 && (this.low[row] !== low || this.high[row] !== high)) row = row + 1 & this.mask;
    return row;
  }

  put(high, low, sizeHigh, sizeLow, site) {
    if (2 * this.count > this.mask) this.widen();
    const row = this.rowOf(high, low);
    if (this.sites[row] < 0) this.count++;
    this.high[row] = high;
    this.low[row] = low;
    this.sizesHigh[row] = sizeHigh;
    this.sizesLow[row] = sizeLow;
    this.sites[row] = site;
  }

  widen() {
    const { high, low, sizesHigh, sizesLow, sites } = this;
    this.count = 0;
    this.begin(2 * (this.mask + 1));
    sites.forEach((site, row) => {
      if (site >= 0) this.put(high[row], low[row], sizesHigh[row], sizesLow[row], site);
    });
  }

  // Takes a row out, and moves those up that stand behind their homes.
  remove(row) {
    let free = row;
    for (let next = row + 1 & this.mask; this.sites[next] >= 0; next = next + 1 & this.mask) {
      const home = this.home(this.high[next], this.low[next]);
      if ((next - home & this.mask) < (next - free & this.mask)) continue;
      this.high[free] = this.high[next];
      this.low[free] = this.low[next];
      this.sizesHigh[free] = this.sizesHigh[next];
      this.sizesLow[free] = this.sizesLow[next];
      this.sites[free] = this.sites[next];
      free = next;
    }
    this.sites[free] = -1;
    this.count--;
  }
}

// The locations that ask for memory, each once, in the order in which they first do.
class Locations {
  constructor() {
    this.names = [];
    this.rows = new Int32Array(1 << 12).fill(-1);
    this.hashes = [];
    this.bytes = [];
  }

  // The number of the location in these bytes.
  number(bytes, from, to) {
    let hash = 0x811c9dc5;
    for (let at = from; at < to; at++) hash = Math.imul(hash ^ bytes[at], 0x01000193);
    hash ^= hash >>> 15;
    const mask = this.rows.length - 1;
    let row = hash & mask;
    for (; this.rows[row] >= 0; row = row + 1 & mask) {
      const site = this.rows[row];
      if (this.hashes[site] === hash && this.isOf(site, bytes, from, to)) return site;
    }
    return this.add(hash, row, bytes.slice(from, to));
  }

  isOf(site, bytes, from, to) {
    const known = this.bytes[site];
    if (known.length !== to - from) return false;
    for (let at = 0; at < known.length; at++) if (known[at] !== bytes[from + at]) return false;
    return true;
  }

  add(hash, row, location) {
    const site = this.names.length;
    this.names.push(byteText(location, 0, location.length));
    this.hashes.push(hash);
    this.bytes.push(location);
    this.rows[row] = site;
    if (2 * site > this.rows.length) this.widen();
    return site;
  }

  widen() {
    const mask = 2 * this.rows.length - 1;
    this.rows = new Int32Array(mask + 1).fill(-1);
    this.hashes.forEach((hash, site) => {
      let row = hash & mask;
      while (this.rows[row] >= 0) row = row + 1 & mask;
      this.rows[row] = site;
    });
  }
}

// What a request has to be served from: the lowest size of the first class whose blocks all hold it, as docs/LOG.md has it.
function classSize(align, size) {
  const rounded = (number, unit) => Math.ceil(number / unit) * unit;
  const needed = rounded(Math.max(size, 1), UNIT) + Math.max(align - UNIT, 0);
  let power = 1;
  while (power <= needed) power *= 2;
  return rounded(needed, Math.max(UNIT, Math.floor(power / 64)));
}

// What happened at each site since the last point, the sites in order of their first change.
class Counts {
  constructor() {
    this.changed = [];
    this.isChanged = new Uint8Array(1 << 10);
    this.numbers = new Float64Array(5 << 10);
    // By place what is too great to stand among the numbers, and belongs to these.
    this.more = new Map();
  }

  // Adds bytes to the number at a place.
  add(place, bytes) {
    const sum = typeof bytes === "number" ? this.numbers[place] + bytes : NaN;
    if (Number.isSafeInteger(sum)) this.numbers[place] = sum;
    else this.more.set(place, plus(this.more.get(place) || 0, bytes));
  }

  // The numbers of a site.
  at(site) {
    const numbers = Array.from(this.numbers.subarray(5 * site, 5 * site + 5));
    return numbers.map((number, at) => plus(number, this.more.get(5 * site + at) || 0));
  }

  // Where a site's numbers stand: bytes asked for, calls, bytes freed, frees, temporary blocks.
  of(site) {
    if (site >= this.isChanged.length) this.widen();
    if (!this.isChanged[site]) {
      this.isChanged[site] = 1;
      this.changed.push(site);
    }
    return 5 * site;
  }

  widen() {
    const { isChanged, numbers } = this;
    this.isChanged = new Uint8Array(2 * isChanged.length);
    this.isChanged.set(isChanged);
    this.numbers = new Float64Array(2 * numbers.length);
    this.numbers.set(numbers);
  }

  // What has changed, six numbers each: site, bytes and blocks held more, calls, bytes asked for, temporary blocks.
  snapshot() {
    const changes = this.changed.flatMap((site) => {
      const [asked, calls, freed, frees, temporary] = this.at(site);
      this.numbers.fill(0, 5 * site, 5 * site + 5);
      this.isChanged[site] = 0;
      return [site, minus(asked, freed), calls - frees, calls, asked, temporary];
    });
    const isGreat = this.more.size > 0;
    this.changed = [];
    this.more.clear();
    return isGreat ? changes : Float64Array.from(changes);
  }
}

// A log that is read line by line. Lines that a report found something wrong with are read by what it says.
class Reading {
  // told: takes the location of each line without effect.
  constructor(told) {
    this.told = told;
    this.held = new Held();
    this.locations = new Locations();
    this.counts = new Counts();
    this.calls = new Float64Array(65);
    this.asked = Array(65).fill(0);
    this.largest = null;
    this.mostPlain = -1;
    this.number = 0;
    this.last = this.taken = null;
  }

  // Reads a number from its first digit on.
  digits(bytes, at) {
    let high = 0, low = 0;
    for (let digit; (digit = DIGITS[bytes[at]]) >= 0; at++) {
      high = (high << 4 | low >>> 28) >>> 0;
      low = (low << 4 | digit) >>> 0;
    }
    this.high = high;
    this.low = low;
    return at;
  }

  // Reads an address or a size, which may be 0, and answers the place behind it and a space.
  word(bytes, at) {
    return this.digits(bytes, bytes[at + 1] === 0x78 ? at + 2 : at) + 1;
  }

  // Reads the line of these bytes, which is well formed, and served. A line that begins behind `<` on the line before gives back what
  // that took.
  take(bytes, from, to) {
    let at = from, begun = from;
    if (bytes[from] === AT) {
      begun = from + 2;
      at = bytes.indexOf(SPACE, begun) + 1;
    }
    const form = bytes[at], last = this.last;
    this.last = null;
    at += 2;
    if (form === PLUS) this.gives(bytes, begun, at, 0);
    else if (form === MINUS) {
      this.word(bytes, at);
      this.frees(this.high, this.low, last);
    } else if (form === LESS) {
      this.word(bytes, at);
      this.taken = [this.high, this.low];
    } else if (form === MORE) {
      this.frees(...this.taken, null);
      this.gives(bytes, begun, at, 0);
    } else if (form === STAR) this.gives(bytes, begun, at, 1);
    else if (form === MARK && begun !== from) this.tell(bytes, begun, at - 3, to);
  }

  // A line that may tell a module, a stack or the log's age.
  tell(bytes, begun, end, to) {
    if (to - end === NO_EFFECT.length && bytes[end + 3] === BRACKET && bytes[to - 1] === 0x30) this.told(byteText(bytes, begun, end), this.number);
  }

  // A block is given: the location begins at `begun`, the address at `at`, behind which stand numbers, the size last.
  gives(bytes, begun, at, aligned) {
    if (bytes[at] === BRACKET) return;
    const end = at - 3;
    at = this.word(bytes, at);
    const high = this.high, low = this.low;
    let align = 1;
    if (aligned) {
      at = this.word(bytes, at);
      align = this.high * 4294967296 + this.low;
    }
    this.word(bytes, at);
    const { high: sizeHigh, low: sizeLow } = this, size = ofHalves(sizeHigh, sizeLow);
    const power = this.high ? 64 - Math.clz32(this.high) : 32 - Math.clz32(this.low);
    const site = this.locations.number(bytes, begun, Math.max(begun, end)), place = this.counts.of(site);
    this.counts.add(place, size);
    this.counts.numbers[place + 1] += 1;
    this.calls[power] += 1;
    this.asked[power] = plus(this.asked[power], size);
    this.held.put(high, low, sizeHigh, sizeLow, site);
    this.last = [high, low];
    // No heap serves what is greater than JavaScript counts, and then this isn't told.
    if (aligned || size > this.mostPlain) this.asks(align, Number(size), site);
  }

  // Keeps the first line that asks for the most; of one class that with the most bytes.
  asks(align, size, site) {
    if (align === 1) this.mostPlain = size;
    const whole = classSize(align, size), most = this.largest;
    if (!most || whole > most.classSize || whole === most.classSize && size > most.size) {
      this.largest = { line: this.number, size, align, classSize: whole, site };
    }
  }

  frees(high, low, last) {
    const row = this.held.rowOf(high, low), site = this.held.sites[row];
    if (site < 0) throw new Differs(`line ${this.number} frees what isn't held, and no report says so`);
    const place = this.counts.of(site);
    this.counts.add(place + 2, ofHalves(this.held.sizesHigh[row], this.held.sizesLow[row]));
    this.counts.numbers[place + 3] += 1;
    if (last && last[0] === high && last[1] === low) this.counts.numbers[place + 4] += 1;
    this.held.remove(row);
  }

  // Reads a line with diagnostics, of which `kinds` has a bit each. What is held after it is as docs/FORMATS.md, "What a line does", has it.
  takeFaulty(bytes, from, to, kinds) {
    this.last = null;
    const has = (kind) => kinds >> kind & 1;
    if ([TOO_LONG, NOT_A_LINE, HALF, STRAY, ALREADY_HELD].some(has)) return;
    const begun = bytes[from] === AT ? from + 2 : from, at = begun === from ? from : bytes.indexOf(SPACE, begun) + 1;
    if (bytes[at] !== MORE) return;
    if (!has(NOT_HELD)) this.frees(...this.taken, null);
    this.gives(bytes, begun, at + 2, 0);
  }
}

// The lines with diagnostics in order, each with its kinds as bits.
class Faulty {
  constructor() {
    this.lines = [];
    this.kinds = [];
    this.at = 0;
  }

  add(line, kind) {
    const last = this.lines.length - 1;
    if (this.lines[last] === line) this.kinds[last] |= 1 << kind;
    else {
      this.lines.push(line);
      this.kinds.push(1 << kind);
    }
  }

  // The kinds of a line, where it is the next of these, else 0.
  take(line) {
    return this.lines[this.at] === line ? this.kinds[this.at++] : 0;
  }
}

// A log's sites, its changes between the points, and by power of two calls and bytes at each.
class PointReader {
  constructor(points, faulty, told) {
    this.points = points;
    this.faulty = faulty;
    this.reading = new Reading(told);
    this.changes = [];
    this.powers = [];
    this.places = [];
    this.place = 0;
    this.reach();
  }

  // Keeps what has changed, where the next point is reached, and at which byte it is.
  reach() {
    const { reading } = this;
    if (this.points[this.changes.length] !== reading.number) return;
    this.changes.push(reading.counts.snapshot());
    this.powers.push([Array.from(reading.calls), Array.from(reading.asked)]);
    this.places.push(this.place);
  }

  line(bytes, from, to) {
    const { reading } = this;
    reading.number++;
    const kinds = this.faulty.take(reading.number);
    if (kinds) reading.takeFaulty(bytes, from, to, kinds);
    else reading.take(bytes, from, to);
  }

  // Reads the lines of a piece, and answers how many bytes these are. Only the log's last line may lack its newline.
  piece(bytes, isLast) {
    let at = 0;
    const begun = this.place;
    for (;;) {
      const newline = bytes.indexOf(NEWLINE, at);
      if (newline < 0 && !(isLast && at < bytes.length)) break;
      const end = newline < 0 ? bytes.length : newline;
      this.line(bytes, at, end);
      at = newline < 0 ? end : end + 1;
      this.place = begun + at;
      this.reach();
    }
    return at;
  }
}

// Lets what waits in this worker go on.
const others = () => new Promise((resolve) => setTimeout(resolve));

// Reads a file piece by piece up to the last point.
async function readLog(file, reader, progress) {
  const { points } = reader;
  for (let from = 0; from < file.size && reader.changes.length < points.length; await others()) {
    const piece = file.piece(from, PIECE);
    const length = reader.piece(piece, from + piece.length >= file.size);
    if (!length) throw new Differs("a line is longer than a piece of the log");
    from += length;
    progress(from / file.size);
  }
  if (reader.changes.length < points.length) throw new Differs("the log has fewer lines than the reports say");
}
