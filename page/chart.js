// ---- the chart

const TOP = 16, MOST_BANDS = 10, SHARE_OF_PEAK = 0.6;

// Even numbers from 0 to the last that isn't above the most, at most so many behind 0.
function ticks(most, count) {
  let step = 1;
  for (let power = 1; most / step > count; power *= 10) {
    step = [1, 2, 5, 10].map((factor) => factor * power).find((each) => most / each <= count) || step;
  }
  return Array.from({ length: Math.floor(most / step) + 1 }, (_, at) => at * step);
}

// Bytes at a tick, in larger units where there are many, or where there is little room.
function shortBytes(value, most, narrow) {
  const units = [[1e18, "EB"], [1e15, "PB"], [1e12, "TB"], [1e9, "GB"], [1e6, "MB"],
    ...(narrow ? [[1e3, "kB"]] : [])];
  const unit = units.find(([size]) => most >= (narrow ? 2 : 10) * size);
  return unit ? `${value / unit[0]} ${unit[1]}` : told(value);
}

// When a line was written, in seconds: in between as if lines came evenly.
function secondsAt(line) {
  const ages = [[0, 0], ...data.ages];
  let at = ages.findIndex(([told]) => told >= line);
  if (at < 1) at = at === 0 ? 1 : ages.length - 1;
  const [[first, before], [second, after]] = [ages[at - 1], ages[at]];
  const part = Math.min(1, (line - first) / Math.max(1, second - first));
  return (before + part * (after - before)) / 1000;
}

// The groups' bytes at each point.
function seriesOf() {
  return grouped(changeRows, data.changes.map((changes) => {
    const values = [];
    let held = 0, at = 0;
    for (let point = 0; point < data.points.length; point++) {
      for (; at < changes.length && changes[at] <= point; at += 6) {
        held = plus(held, changes[at + 1]);
      }
      values.push(held);
    }
    return values;
  }));
}

// Whether a group is that of the functions that share a row.
function areOthers(group) {
  return group.rows[0].of === data.functions.length - 1;
}

// The greatest groups, the greatest first, and the rest as one, which names its own greatest.
function bandsOf(groups) {
  groups.forEach((group) => {
    group.most = mostOf(group.numbers);
    group.peak = group.numbers[data.peak];
  });
  const held = groups.filter((group) => group.most > 0 && !areOthers(group)), others = groups.filter(areOthers);
  held.sort((one, other) => falling(one.most, other.most) || (one.told < other.told ? -1 : 1));
  const peaks = (some) => sumOf(some.map((group) => group.peak)), whole = peaks(groups);
  if (shareOf(peaks(held.slice(0, MOST_BANDS)), whole) < SHARE_OF_PEAK) {
    held.sort((one, other) => falling(one.peak, other.peak) || (one.told < other.told ? -1 : 1));
  }
  const bands = held.slice(0, MOST_BANDS).map((group, at) => ({ name: `s${at}`, told: group.told, values: group.numbers }));
  const rest = held.slice(MOST_BANDS);
  if (rest.length) {
    const greatest = rest.reduce((best, group) => group.most > best.most ? group : best), all = [...rest, ...others];
    const values = data.points.map((_, point) => sumOf(all.map((group) => group.numbers[point])));
    bands.push({ name: "rest", told: `${counted(rest.length, "other")}${others.length ? " and more" : ""}, with ` +
      `${percent(values[data.peak], whole)} of the peak, the greatest ${greatest.told}`, values });
  }
  return bands;
}

// Where lines and bytes stand in a drawing that is as wide as its home.
class Frame {
  constructor(home, span, most) {
    this.width = widthOf(home);
    this.narrow = this.width < 600;
    this.left = this.narrow ? 52 : 80;
    this.right = this.width - 16;
    this.bottom = this.narrow ? 220 : 300;
    this.height = this.bottom + 40;
    this.span = span;
    this.most = Math.max(1, Math.floor(1.08 * most));
  }

  x(line) {
    return this.left + (this.right - this.left) * line / this.span;
  }

  y(value) {
    return this.bottom - (this.bottom - TOP) * Number(value) / this.most;
  }

  // Bytes at the left, and below what `named` tells of each tick.
  axes(named, words) {
    const parts = [];
    for (const value of ticks(this.most, 6)) {
      parts.push(draw("path", { class: "grid", d: `M${this.left} ${this.y(value)}H${this.right}` }),
        draw("text", { x: this.left - 6, y: this.y(value), dy: 4, "text-anchor": "end" }, shortBytes(value, this.most, this.narrow)));
    }
    for (const line of ticks(this.span, this.narrow ? 3 : 6)) {
      const x = this.x(line), atEnd = x > this.right - 30;
      parts.push(draw("path", { class: "grid", d: `M${x} ${this.bottom}v5` }), draw("text", { x: atEnd ? this.width - 1 : x, y: this.bottom + 18,
        "text-anchor": atEnd ? "end" : "middle" }, named(line)));
    }
    return [...parts, draw("text", { class: "soft", x: (this.left + this.right) / 2, y: this.bottom + 35, "text-anchor": "middle" }, words)];
  }

  // A path along values, from line to line.
  steps(lines, values) {
    return values.map((value, at) => at ? `H${this.x(lines[at]).toFixed(1)}V${this.y(value).toFixed(1)}`
      : `M${this.x(lines[0]).toFixed(1)} ${this.y(value).toFixed(1)}`).join("");
  }

  // The same path from its end to its begin.
  back(lines, values) {
    const parts = [`V${this.y(values[values.length - 1]).toFixed(1)}`];
    for (let at = values.length - 1; at > 0; at--) parts.push(`H${this.x(lines[at]).toFixed(1)}V${this.y(values[at - 1]).toFixed(1)}`);
    return `${parts.join("")}Z`;
  }
}

class Chart {
  constructor(changed) {
    this.changed = changed;
    this.lines = data.points.map((point) => point[0]);
    this.last = this.lines.length - 1;
    this.span = Math.max(this.lines[this.last], 1);
    this.box = find("chart-box");
    this.svg = find("chart");
    this.svg.setAttribute("aria-label", `Bytes held after each line of ${data.log}, stacked by ${CHOICES[choice]}, with the peak at line ` +
      `${told(data.points[data.peak][0])}. The tables below have its numbers.`);
    this.shade = draw("rect", { id: "range-shade", visibility: "hidden" });
    this.cursor = draw("path", { id: "cursor", visibility: "hidden" });
    this.at = data.peak;
    this.anchor = null;
    this.regroup();
    this.listen();
    this.named();
  }

  // Draws the chart by the groups that are chosen, and tells by them what is held where it was last told.
  regroup() {
    this.bands = bandsOf(seriesOf());
    this.redraw();
    this.tellWords();
    find("legend").replaceChildren(...[...this.bands].reverse().map((band) =>
      make("li", {}, make("span", { class: `key ${band.name}` }), " ", isolated(band.told))));
  }

  // Draws the chart for the width that there is.
  redraw() {
    const most = Number(mostOf(data.points.flatMap(([, bytes, , reach]) => [bytes, reach || 0])));
    this.frame = new Frame(this.box, this.span, most);
    const seconds = data.ages.length && !this.frame.narrow;
    const axes = this.frame.axes((line) => told(line) + (seconds ? ` · ${secondsAt(line).toFixed(1)} s` : ""),
      seconds ? "line of the log, and seconds since it began" : "line of the log");
    this.svg.setAttribute("viewBox", `0 0 ${this.frame.width} ${this.frame.height}`);
    this.svg.replaceChildren(...axes, ...this.areas(), ...this.marks(), this.shade, this.cursor);
    this.shade.setAttribute("y", TOP);
    this.shade.setAttribute("height", this.frame.bottom - TOP);
    this.cover();
    if (this.cursor.getAttribute("visibility") === "visible") this.tell(this.at);
  }

  // The bands, one on the other, each named on hovering.
  areas() {
    let below = this.lines.map(() => 0);
    return this.bands.map((band) => {
      const above = band.values.map((value, point) => plus(value, below[point]));
      const path = draw("path", { class: band.name, d: this.frame.steps(this.lines, above) + this.frame.back(this.lines, below) }, draw("title", {}, band.told));
      below = above;
      return path;
    });
  }

  marks() {
    const { left, right, bottom, narrow } = this.frame, x = this.x(data.peak), behind = x > (left + right) / 2;
    const [line, bytes] = data.points[data.peak];
    const reach = data.fits ? [draw("path", { class: "reach", d: this.frame.steps(this.lines, data.points.map((point) => point[3])) })] : [];
    if (!bytes) return reach;
    const words = `peak${narrow ? "" : `, line ${told(line)}`}: ${counted(bytes, "byte")}`;
    return [...reach, draw("path", { class: "mark", d: `M${x} ${TOP}V${bottom}` }),
      draw("text", { class: "marked", x: x + (behind ? -6 : 6), y: TOP + 10, "text-anchor": behind ? "end" : "start" }, words)];
  }

  x(point) {
    return this.frame.x(this.lines[point]);
  }

  listen() {
    window.addEventListener("resize", () => { if (this.frame.width !== widthOf(this.box)) this.redraw(); });
    this.svg.addEventListener("pointerdown", (event) => {
      this.dragged = this.pointAt(event);
      this.svg.setPointerCapture(event.pointerId);
    });
    this.svg.addEventListener("pointermove", (event) => this.moved(event));
    this.svg.addEventListener("pointerup", () => { this.dragged = undefined; });
    this.svg.addEventListener("pointercancel", () => { this.dragged = undefined; });
    window.addEventListener("hashchange", () => this.named());
    this.box.addEventListener("keydown", (event) => this.key(event));
    this.box.addEventListener("focus", () => this.tell(this.at));
    find("all").addEventListener("click", () => this.choose(0, this.last));
    find("range").addEventListener("submit", (event) => {
      event.preventDefault();
      this.choose(this.nearest(Number(find("from").value)), this.nearest(Number(find("to").value)));
    });
  }

  // The range that the page's address names, as page.html#3-9; without one all lines.
  named() {
    const lines = /^#(\d+)-(\d+)$/.exec(location.hash);
    this.choose(lines ? this.nearest(Number(lines[1])) : 0, lines ? this.nearest(Number(lines[2])) : this.last);
  }

  moved(event) {
    const point = this.pointAt(event);
    if (point !== this.at || this.cursor.getAttribute("visibility") === "hidden") this.tell(point);
    if (this.dragged !== undefined && point !== this.dragged) this.choose(this.dragged, point);
  }

  pointAt(event) {
    const box = this.svg.getBoundingClientRect();
    const x = (event.clientX - box.left) / box.width * this.frame.width;
    return this.nearest(this.span * (x - this.frame.left) / (this.frame.right - this.frame.left));
  }

  nearest(line) {
    let best = 0;
    this.lines.forEach((other, point) => { if (Math.abs(other - line) < Math.abs(this.lines[best] - line)) best = point; });
    return best;
  }

  // Says what is held at a point, and marks it.
  tell(point) {
    this.at = point;
    this.cursor.setAttribute("d", `M${this.x(point)} ${TOP}V${this.frame.bottom}`);
    this.cursor.setAttribute("visibility", "visible");
    this.tellWords();
  }

  // Who holds how much at the point that was last told.
  tellWords() {
    const point = this.at, [line, bytes, blocks, reach, , largest] = data.points[point];
    const groups = between(0, point).filter((group) => group.numbers[AFTER])
      .sort(fallingBy((group) => group.numbers[AFTER])).slice(0, 5);
    const words = groups.map((group) => `${told(group.numbers[AFTER])} at ${group.told}`).join("; ");
    const heap = data.fits ? `, reach ${told(reach)}, largest free block ${told(largest)}` : "";
    find("readout").replaceChildren(isolated(`Line ${told(line)}${point === data.peak && bytes ? " (peak)" : ""}: ${counted(bytes, "byte")} in ` +
      `${counted(blocks, "block")}${heap}. ${words}`));
  }

  choose(one, other) {
    this.range = [Math.min(one, other), Math.max(one, other)];
    const [from, to] = this.range;
    this.cover();
    find("from").value = this.lines[from];
    find("to").value = this.lines[to];
    if (from === 0 && to === this.last) this.anchor = null;
    this.changed(from, to);
  }

  // Shades the range that is chosen.
  cover() {
    const [from, to] = this.range || [0, this.last];
    this.shade.setAttribute("visibility", from === 0 && to === this.last ? "hidden" : "visible");
    this.shade.setAttribute("x", this.x(from));
    this.shade.setAttribute("width", Math.max(this.x(to) - this.x(from), 0));
  }

  key(event) {
    if (event.target !== this.box) return;
    const to = {
      ArrowLeft: this.at - 1, ArrowRight: this.at + 1, PageUp: this.at - 10, PageDown: this.at + 10, Home: 0, End: this.last,
      p: data.peak, P: data.peak,
    }[event.key];
    if (event.key === "Escape") this.choose(0, this.last);
    if (to === undefined) return;
    event.preventDefault();
    const before = this.at;
    this.tell(Math.min(Math.max(to, 0), this.last));
    if (!event.shiftKey || event.key === "P") { this.anchor = null; return; }
    if (this.anchor === null) this.anchor = before;
    this.choose(this.anchor, this.at);
  }
}
