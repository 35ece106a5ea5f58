// All that is told of one log: the reports, and a reading of its own, which have to agree. What it makes is the data of the page, as
// page/study.py and document.py make it.
"use strict";

// How many points there are; how many sites are told one by one, with how many bytes of names; and of the greatest of these how many
// changes between the points, and of the others.
const POINTS = 200, MOST_SITES = 5000, MOST_TEXT = 700_000, MOST_CHANGES = 40_000, MOST_REST_CHANGES = 25_000, MOST_DIAGNOSTICS = 500;
const OTHERS = ["other functions", "", "other files", "other modules"];

// The sums of two lists of numbers.
const added = (one, other) => one.map((number, at) => plus(number, other[at]));

// There is no page where both differ.
function expectSame(what, reckoned, told) {
  if (reckoned.length !== told.length || reckoned.some((number, at) => number !== told[at])) {
    throw new Differs(`the numbers differ ${what}: ${told.join(", ")} by the reports, ${reckoned.join(", ")} as the page reckons`);
  }
}

// Numbers by location, which have to be these.
function expectSameSites(what, reckoned, told) {
  if (reckoned.size !== told.size) throw new Differs(`the numbers differ ${what}: ${told.size} sites by the reports, and ${reckoned.size}`);
  for (const [location, numbers] of reckoned) expectSame(what, numbers, told.get(location) || []);
}

// The length of a text as JSON of plain letters.
function jsonLength(text) {
  return Array.from(JSON.stringify(text), (letter) => letter < "\x7f" ? 1 : 6 * letter.length).reduce((sum, count) => sum + count, 0);
}

// How a log ends, as tracer/ends.py tells it: with its end; with a line that says it is cut, since its process went on; or with
// neither.
function howItEnds(file) {
  const last = file.piece(Math.max(0, file.size - 16), 16), text = byteText(last, 0, last.length);
  return text.endsWith("= End\n") ? "whole" : text.endsWith("@ cut ! (nil) 0\n") ? "left" : "ended";
}

// How many calls a log says that it has lost, at least.
function missedCalls(file) {
  const last = file.piece(Math.max(0, file.size - 64), 64), text = byteText(last, 0, last.length);
  const found = /(?:^|\n)@ lost ! \(nil\) (0x[0-9a-f]{1,16})\n@ cut ! \(nil\) 0\n$/.exec(text);
  return found ? numberOf(found[1]) : 0;
}

// The functions of sites, each with its number, and its short name: with the line where it is one.
class Functions {
  constructor(sites) {
    this.numbers = new Map();
    this.all = [];
    this.of = sites.map((site) => this.number(site));
    this.lines = this.all.map(() => new Set());
    sites.forEach((site, at) => this.lines[this.of[at]].add(site.line));
  }

  number(site) {
    const key = [site.name, site.short, site.file, site.module].join("\n");
    if (!this.numbers.has(key)) {
      this.numbers.set(key, this.all.length);
      this.all.push(site);
    }
    return this.numbers.get(key);
  }

  label(of) {
    const { short, file } = this.all[of], [line, ...more] = this.lines[of];
    const place = file + (file && !more.length && line ? `:${line}` : "");
    return [short, place].filter(Boolean).join(" ") || NO_LOCATION;
  }

  data() {
    return [...this.all.map(({ name, file, module }, of) => [this.label(of), name, file || module, module]), OTHERS];
  }
}

// One log. `run` runs the program on words and answers its text; `names` has what is known of locations, and `reachable` what of its end
// is lost, or they are nothing.
class Study {
  constructor(file, name, run, names, progress, reachable) {
    Object.assign(this, { file, name, run, names, progress, reachable });
    this.faulty = new Faulty();
    this.kinds = KINDS.map(() => 0);
    this.diagnostics = [];
    this.stacks = new Stacks();
    Object.assign(this, { refused: 0, firstRefused: null, step: null, limits: null, heaps: [] });
    // At which byte the peak is, once the log is read.
    this.reached = {};
    this.reached.promise = new Promise((resolve) => { this.reached.resolve = resolve; });
  }

  get fits() {
    return this.firstRefused === null;
  }

  // The reports go on side by side, those first on whose answers others wait. Meanwhile the log is read.
  async read() {
    const [sums, onHeap, timeline, sites, leaks] = [["peak", "--no-heap"], ["peak", ...GREATEST], ["timeline", "--points", String(POINTS), "--sites"],
      ["sites", "--calls"], ["leaks", "--no-heap"]].map((words) => this.begin(words));
    this.readPeak(await sums);
    const points = pointsOf(this.lines, this.peak, POINTS), heap = this.lookAtHeap(onHeap, timeline, points);
    // What fails is told by the first of these that is waited for.
    heap.catch(() => {});
    this.peakRow = points.indexOf(this.peak);
    this.end = howItEnds(this.file);
    this.missed = missedCalls(this.file);
    this.reader = new PointReader(points, this.faulty, (location, line) => this.stacks.take(location, line));
    await readLog(this.file, this.reader, this.progress);
    this.reached.resolve(this.reader.places[this.peakRow]);
    this.stacks.end();
    this.locations = this.reader.reading.locations.names;
    [this.atPeak, this.atEnd, this.byCalls] = readSites(await sites);
    this.leaks = await leaks;
    this.lookForLost();
    await heap;
    if (this.fits) this.findLimits(Object.fromEntries(this.fit));
    this.findFunctions();
    this.agree();
    this.keepGreatest();
  }

  // What of the end is lost, possibly lost and still reachable, where that is known. By location it is what is held there.
  lookForLost() {
    this.lost = this.reachable && readReachable(this.reachable.piece(0, this.reachable.size));
    if (!this.lost) return;
    const sums = new Map();
    for (const part of this.lost) part.forEach((numbers, location) => sums.set(location, added(sums.get(location) || [0, 0], numbers)));
    const isSame = sums.size === this.atEnd.size &&
      [...sums].every(([location, numbers]) => String(numbers) === String(this.atEnd.get(location)));
    if (!isSame) throw new Differs(`${this.name}.reachable isn't of this log's end`);
  }

  // ---- the reports

  // Begins a report. One that fails ends the study where it is waited for.
  begin(words, first) {
    const report = this.run(words, first);
    report.catch(() => {});
    return report;
  }

  readPeak(text) {
    const end = readDiagnostics(text, (line, kind, said) => {
      this.kinds[kind]++;
      this.faulty.add(line, kind);
      if (this.diagnostics.length < MOST_DIAGNOSTICS) this.diagnostics.push([line, shown(said)]);
    });
    const told = Object.fromEntries(readNamed(text.subarray(end)));
    this.lines = numberOf(told.lines);
    this.peak = numberOf(told.peak.split(" ").pop());
  }

  findRefused(text) {
    readDiagnostics(text, (line, kind) => {
      if (kind !== REFUSED) return;
      this.firstRefused ??= line;
      this.refused++;
    });
  }

  // What the heap holds at the peak and at the end, and the pools that the log needs; or heaps by size.
  async lookAtHeap(onHeap, timeline, points) {
    this.byLocation = await timeline;
    this.rows = Array.from(rowsBySite(this.byLocation), ({ row }) => row);
    expectSame("in the lines of the timeline", points, this.rows.map(([line]) => line));
    this.findRefused(await onHeap);
    if (!this.fits) {
      this.fit = readNamed(await this.begin(["fit", "--heaps", "4"]));
      return;
    }
    const [, bytes, blocks] = this.rows[this.peakRow];
    this.step = coarseStep(this.lines, blocks, bytes);
    const fit = this.begin(["fit", ...(this.step ? ["--step", String(this.step)] : [])]);
    const onLines = this.begin(["timeline", "--points", String(POINTS), ...GREATEST]), atEnd = this.begin(["walk", ...GREATEST]);
    const atPeak = this.begin(["walk", ...GREATEST], await this.reached.promise);
    this.heaps = [readWalk(await atPeak), readWalk(await atEnd)];
    this.heapRows = readTimeline(await onLines);
    this.fit = readNamed(await fit);
  }

  // The three numbers of the sure pool; without one the bytes aren't known. By another class size they would be none that this log can
  // hold. Where the greatest pool refuses lines none of them is told.
  findLimits(fit) {
    const { largest } = this.reader.reading;
    const [sure, blocks, peak] = ["sure pool", "held at most", "peak"].map((name) => /^\d+/.exec(fit[name]))
      .map((found) => found && numberOf(found[0]));
    if (!largest || !/^\d+$/.test(fit.records)) return;
    const { line, size, align, classSize } = largest, bytes = sure ? sure - UNIT - (blocks + 1) * (classSize - UNIT) : null;
    if (sure && !(peak <= bytes && bytes <= peak + UNIT * blocks)) {
      throw new Differs(`the numbers differ in the sure pool: ${bytes} bytes in units of ${UNIT}, and ${peak} bytes at the peak`);
    }
    this.limits = { blocks, bytes, line, size, align, classSize };
  }

  // ---- whether all agree

  // What was reckoned here is what the proved reports tell, or there is no page.
  agree() {
    const count = this.locations.length, zeros = () => Array(count).fill(0);
    Object.assign(this, { most: zeros(), asked: zeros(), changed: zeros(), calls: zeros(), temporary: zeros() });
    const { held, blocks } = this.agreeOnRows(zeros(), zeros());
    expectSameSites("by site at the end", this.bySite(held, blocks), this.atEnd);
    const byCalls = this.locations.map((location, site) => [location, [this.calls[site], this.asked[site], this.temporary[site]]]);
    expectSameSites("by site over the log", new Map(byCalls.filter(([, [calls]]) => calls)), this.byCalls);
    this.agreeOnLeaks();
    if (this.fits) this.agreeOnHeap();
  }

  // What is held after each point, in all and by site: it begins with these zeros.
  agreeOnRows(held, blocks) {
    let bytes = 0, allBlocks = 0, point = 0;
    for (const { row, sites } of rowsBySite(this.byLocation)) {
      const changed = new Map();
      for (const [site, more, moreBlocks, ...over] of changesOf(this.reader.changes[point])) {
        held[site] = plus(held[site], more);
        blocks[site] += moreBlocks;
        bytes = plus(bytes, more);
        allBlocks += moreBlocks;
        this.count(site, over, held[site]);
        if (more || moreBlocks) changed.set(this.locations[site], [held[site], blocks[site]]);
      }
      expectSame(`after line ${row[0]}`, [bytes, allBlocks], row.slice(1, 3));
      expectSameSites(`by site after line ${row[0]}`, changed, sites);
      if (point === this.peakRow) expectSameSites(`by site at the peak, line ${row[0]}`, this.bySite(held, blocks), this.atPeak);
      point++;
    }
    this.byLocation = null;
    return { held, blocks };
  }

  count(site, [calls, asked, temporary], held) {
    this.calls[site] += calls;
    this.asked[site] = plus(this.asked[site], asked);
    this.temporary[site] += temporary;
    this.changed[site] += 1;
    this.most[site] = mostOf([this.most[site], held]);
  }

  // Bytes and blocks of each location that holds any.
  bySite(held, blocks) {
    const found = new Map();
    this.locations.forEach((location, site) => { if (blocks[site]) found.set(location, [held[site], blocks[site]]); });
    return found;
  }

  agreeOnLeaks() {
    let bytes = 0, blocks = 0;
    readLeaks(this.leaks, (size) => {
      bytes = plus(bytes, size);
      blocks += 1;
    });
    expectSame("not freed", [bytes, blocks], this.rows[this.rows.length - 1].slice(1, 3));
  }

  agreeOnHeap() {
    this.rows.forEach((row, point) => expectSame(`at line ${row[0]} with a heap`, row, this.heapRows[point].slice(0, 3)));
    this.rows = this.heapRows;
    const rows = [this.rows[this.peakRow], this.rows[this.rows.length - 1]];
    this.heaps.forEach((pools, at) => expectSame("in reach, free and largest free block", measures(pools), rows[at].slice(3)));
  }

  // ---- the sites that are told one by one

  findFunctions() {
    this.sites = this.locations.map((location) => this.names && Object.hasOwn(this.names, location) ? this.names[location]
      : plainSite(this.stacks.whole(location)));
    this.functions = new Functions(this.sites);
    this.functionOf = this.functions.of;
  }

  keepGreatest() {
    const byMost = fallingBy((site) => this.most[site]);
    const byAsked = fallingBy((site) => this.asked[site]);
    const order = [...this.locations.keys()].sort((one, other) => byMost(one, other)
      || byAsked(one, other) || (this.locations[one] < this.locations[other] ? -1 : 1));
    this.kept = [];
    const seen = new Set();
    let text = 0;
    for (const site of order.slice(0, MOST_SITES)) {
      const { frames } = this.sites[site], fresh = [...new Set(frames)].filter((frame) => !seen.has(frame));
      text += 5 * frames.length + fresh.reduce((sum, frame) => sum + jsonLength(frame), 0) + 16;
      if (text > MOST_TEXT) break;
      fresh.forEach((frame) => seen.add(frame));
      this.kept.push(site);
    }
    let changes = 0;
    this.followed = this.kept.filter((site) => (changes += this.changed[site]) <= MOST_CHANGES).length;
    this.row = new Map(this.kept.map((site, row) => [site, row]));
  }

  // ---- the data of the page

  sitesData() {
    const names = new Map(), briefs = [], sites = [], raw = [];
    for (const site of this.kept) {
      const { frames, briefs: brief } = this.sites[site], location = shown(this.locations[site]);
      frames.forEach((frame, at) => {
        if (names.has(frame)) return;
        names.set(frame, names.size);
        briefs.push(brief[at] === frame ? 0 : brief[at]);
      });
      sites.push([this.functionOf[site], ...frames.map((frame) => names.get(frame))]);
      raw.push(location && location !== frames[0] && location.length < 60 ? location : 0);
    }
    return { names: [...names.keys()], briefs, sites, raw };
  }

  // A row for each function that has some of these sites, from a first row on, with how many; and which row each site has. Where the
  // functions to tell are given all others share a row.
  restRows(sites, first, told = null) {
    const rests = new Map(), rows = new Map();
    for (const site of sites) {
      const own = this.functionOf[site], of = !told || told.has(own) ? own : this.functions.all.length;
      if (!rests.has(of)) rests.set(of, { at: first + rests.size, count: 0 });
      rests.get(of).count++;
      rows.set(site, rests.get(of).at);
    }
    return { rests: Array.from(rests, ([of, { count }]) => [of, count]), rows };
  }

  // The functions of these sites, those first that held most, for whose changes there is room.
  functionsToFollow(sites) {
    const points = new Map(), most = new Map();
    for (const site of sites) {
      const of = this.functionOf[site];
      points.set(of, (points.get(of) || 0) + this.changed[site]);
      most.set(of, plus(most.get(of) || 0, this.most[site]));
    }
    const byMost = fallingBy((of) => most.get(of));
    const order = [...points.keys()].sort((one, other) => byMost(one, other) || one - other);
    let taken = 0;
    return new Set(order.filter((of) => (taken += Math.min(points.get(of), this.rows.length)) <= MOST_REST_CHANGES));
  }

  changesData() {
    const followed = this.kept.slice(0, this.followed);
    const others = [...this.locations.keys()].filter((site) => (this.row.get(site) ?? this.followed) >= this.followed);
    const { rests, rows } = this.restRows(others, followed.length, this.functionsToFollow(others));
    followed.forEach((site, row) => rows.set(site, row));
    const sums = Array.from({ length: followed.length + rests.length }, () => new Map());
    this.reader.changes.forEach((changes, point) => {
      for (const [site, ...numbers] of changesOf(changes)) {
        const row = sums[rows.get(site)], before = row.get(point);
        row.set(point, before ? added(before, numbers) : numbers);
      }
    });
    return { changes: sums.map((row) => Array.from(row, ([point, numbers]) => [point, ...numbers]).flat()), changeRests: rests };
  }

  totalsData() {
    const { rests, rows } = this.restRows([...this.locations.keys()].filter((site) => !this.row.has(site)), this.kept.length);
    this.row.forEach((row, site) => rows.set(site, row));
    this.totalRow = rows;
    const totals = Array.from({ length: this.kept.length + rests.length }, () => [0, 0, 0, 0, 0, 0, 0]);
    this.locations.forEach((location, site) => {
      const numbers = [...this.atPeak.get(location) || [0, 0], ...this.atEnd.get(location) || [0, 0], this.calls[site], this.asked[site],
        this.temporary[site]];
      totals[rows.get(site)] = added(totals[rows.get(site)], numbers);
    });
    return { totals, rests };
  }

  // For each power of two that is asked for, the points at which calls and bytes grew, with how many.
  sizesData() {
    const rows = [];
    for (let power = 0; power <= 64; power++) {
      const numbers = [];
      let calls = 0, asked = 0;
      this.reader.powers.forEach(([allCalls, allAsked], point) => {
        if (allCalls[power] === calls) return;
        numbers.push(point, allCalls[power] - calls, minus(allAsked[power], asked));
        calls = allCalls[power];
        asked = allAsked[power];
      });
      if (numbers.length) rows.push([power, numbers]);
    }
    return rows;
  }

  // For each row what isn't freed: bytes, blocks, first and last line, least and greatest size; and where that is known the bytes that are
  // lost, possibly lost and still reachable.
  leaksData() {
    const index = new Map(this.locations.map((location, site) => [location, site])), rows = new Map();
    readLeaks(this.leaks, (size, line, location) => {
      const at = this.totalRow.get(index.get(location));
      const [bytes, blocks, first, last, least, most] = rows.get(at) || [0, 0, line, line, size, size];
      rows.set(at, [plus(bytes, size), blocks + 1, Math.min(first, line), Math.max(last, line),
        leastOf([least, size]), mostOf([most, size])]);
    });
    const lost = new Map(Array.from(rows.keys(), (row) => [row, (this.lost || []).map(() => 0)]));
    (this.lost || []).forEach((part, place) => part.forEach(([bytes], location) => {
      const sums = lost.get(this.totalRow.get(index.get(location)));
      sums[place] = plus(sums[place], bytes);
    }));
    return Array.from(rows, ([row, numbers]) => [row, ...numbers, ...lost.get(row)]);
  }

  // Bytes and blocks that are lost, possibly lost and still reachable, where that is known.
  lostData() {
    return this.lost && this.lost.map((part) => [...part.values()].reduce(added, [0, 0]));
  }

  headData() {
    const at = this.limits && { at: this.functions.label(this.functionOf[this.reader.reading.largest.site]) };
    const cutStacks = this.locations.filter((location) => this.stacks.isCut(location)).length;
    return { sites: this.locations.length, cutStacks, end: this.end, missed: this.missed, bare: "",
      kinds: this.kinds, refused: this.refused, firstRefused: this.firstRefused,
      limits: this.limits && { ...this.limits, ...at } };
  }

  // Of a log of less than a second no time is told.
  ages() {
    const { ages } = this.stacks;
    return ages.length && ages[ages.length - 1][1] >= 1000 ? ages : [];
  }

  pageData() {
    const { names, briefs, sites, raw } = this.sitesData(), { changes, changeRests } = this.changesData(), { totals, rests } = this.totalsData();
    return { log: this.name, lines: this.lines, points: this.rows, peak: this.peakRow, ages: this.ages(), functions: this.functions.data(),
      names, briefs, sites, raw, totals, rests, changes, changeRests, followed: this.followed, named: Boolean(this.names), head: this.headData(),
      sizes: this.sizesData(), leaks: this.leaksData(), lost: this.lostData(), heaps: this.heaps, fit: this.fit, step: this.step, fits: this.fits,
      diagnostics: this.diagnostics, faulty: this.kinds.reduce((sum, count) => sum + count, 0) };
  }
}

// The changes of a snapshot: site, bytes and blocks held more, calls, bytes asked for, temporary blocks.
function* changesOf(changes) {
  for (let at = 0; at < changes.length; at += 6) yield changes.slice(at, at + 6);
}

// The greatest end of a used block, the free bytes, and the largest free block.
function measures(pools) {
  let reach = 0, free = 0, largest = 0;
  for (const [base, , blocks] of pools) {
    let place = base;
    for (const units of blocks) {
      place += UNIT * Math.abs(units);
      if (units > 0) reach = place;
      else {
        free -= UNIT * units;
        largest = Math.max(largest, -UNIT * units);
      }
    }
  }
  return [reach, free, largest];
}
