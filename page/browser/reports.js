// Reads the reports of the proved program.
"use strict";

// The heap on which a page is made: the greatest.
const GREATEST = ["--pool", "1073741808", "--pools", "1", "--records", "65535"];
const MOST_POOL = 1073741808, UNIT = 16;
const KINDS = ["too long", "not a line", " is not held", " is already held", " refused: ", "half of a reallocation", "no < before >"];
const [TOO_LONG, NOT_A_LINE, NOT_HELD, ALREADY_HELD, REFUSED, HALF, STRAY] = KINDS.keys();
// What `fit` may read again, in seconds of one processor by the estimate below.
const SECONDS_TO_FIT = 3;
const LINES = "line bytes blocks", HEAP_LINES = "line bytes blocks reach free largest";
const HELD_AT = /^(\d+) bytes in (\d+) blocks(?: at (.*))?$/s;

// The reports don't agree with each other, or with what was read beside them.
class Differs extends Error {}

// The lines of a text, without their newlines, from a place on.
function* linesOf(bytes, from) {
  for (let at = from; at < bytes.length;) {
    const newline = bytes.indexOf(10, at), end = newline < 0 ? bytes.length : newline;
    yield byteText(bytes, at, end);
    at = end + 1;
  }
}

// Calls `take` for each line of a text, without its newline, from a place on.
function eachLine(bytes, from, take) {
  for (const line of linesOf(bytes, from)) take(line);
}

function kindOf(said) {
  const kind = KINDS.findIndex((words) => said === words || words.startsWith(" ") && said.includes(words));
  if (kind < 0) throw new Differs(`a diagnostic of an unknown kind: ${said}`);
  return kind;
}

// Calls `take` for each diagnostic, which stand in front of a report, with line number, kind and text; answers where they end.
function readDiagnostics(bytes, take) {
  let at = 0;
  for (;;) {
    const newline = bytes.indexOf(10, at), line = newline < 0 ? "" : byteText(bytes, at, Math.min(newline, at + 120));
    const found = /^line (\d+): (.*)/s.exec(line);
    if (!found) return at;
    take(numberOf(found[1]), kindOf(found[2]), found[2]);
    at = newline + 1;
  }
}

// The lines of a report behind its diagnostics.
function bodyOf(bytes) {
  const lines = [];
  eachLine(bytes, readDiagnostics(bytes, () => {}), (line) => lines.push(line));
  return lines;
}

// The names that stand in front, with what stands behind them.
function readNamed(bytes) {
  return bodyOf(bytes).map((line) => [line.slice(0, line.indexOf(": ")), line.slice(line.indexOf(": ") + 2)]);
}

// Each row of a timeline on a heap: line, bytes, blocks, reach, free, largest.
function readTimeline(bytes) {
  const [header, ...rows] = bodyOf(bytes);
  if (header !== HEAP_LINES) throw new Differs("the timeline has no header");
  return rows.map((row) => row.split(" ").map(numberOf));
}

// Each row of a timeline by location: line, bytes and blocks; and of the locations whose bytes or blocks changed since the row before
// what they hold then.
function* rowsBySite(bytes) {
  const lines = linesOf(bytes, readDiagnostics(bytes, () => {}));
  if (lines.next().value !== LINES) throw new Differs("the timeline has no header");
  let row = null, sites = new Map();
  for (const line of lines) {
    const held = HELD_AT.exec(line);
    if (held) sites.set(held[3] || "", [numberOf(held[1]), numberOf(held[2])]);
    else {
      if (row) yield { row, sites };
      [row, sites] = [line.split(" ").map(numberOf), new Map()];
    }
  }
  if (row) yield { row, sites };
}

// Who holds the memory at the peak and at the end, for each location bytes and blocks; and who asks: calls, bytes and temporary blocks.
function readSites(bytes) {
  const parts = [];
  for (const line of bodyOf(bytes)) {
    const held = HELD_AT.exec(line);
    const asked = held ? null : /^(\d+) bytes in (\d+) calls, (\d+) temporary(?: at (.*))?$/s.exec(line);
    if (/^Held at the |^Asked over the log: /.test(line)) parts.push(new Map());
    else if (held) parts[parts.length - 1].set(held[3] || "", [numberOf(held[1]), numberOf(held[2])]);
    else if (asked) parts[parts.length - 1].set(asked[4] || "", [asked[2], asked[1], asked[3]].map(numberOf));
  }
  if (parts.length !== 3) throw new Differs("the report of sites has no three parts");
  return parts;
}

// What of a log's end is lost, possibly lost and still reachable, by LOG.reachable: bytes and blocks by location. A lost block that others
// lead to has the stack of their first behind its own.
function readReachable(bytes) {
  const names = ["Lost", "Possibly lost", "Still reachable"], parts = [];
  eachLine(bytes, 0, (line) => {
    const head = /^(.+): (\d+) blocks, (\d+) bytes\.$/.exec(line), site = /^(\d+) bytes in (\d+) blocks(?: at (.*?)(?: by s\d+)?)?$/s.exec(line);
    if (head && head[1] === names[parts.length]) parts.push(new Map());
    else if (site && parts.length) {
      const part = parts[parts.length - 1], numbers = [numberOf(site[1]), numberOf(site[2])];
      part.set(site[3] || "", added(part.get(site[3] || "") || [0, 0], numbers));
    }
    else throw new Differs("the list of what is reachable is none");
  });
  if (parts.length !== names.length) throw new Differs("the list of what is reachable has no three parts");
  return parts;
}

// Calls `take` for each block that isn't freed: size, line and location.
function readLeaks(bytes, take) {
  eachLine(bytes, readDiagnostics(bytes, () => {}), (line) => {
    const found = /^0x[0-9a-f]+ (\d+) line (\d+)(?: at (.*))?$/s.exec(line);
    if (found) take(numberOf(found[1]), numberOf(found[2]), found[3] || "");
  });
}

// Each pool: its base, its bytes, and its blocks by place: their units, below zero for a free one.
function readWalk(bytes) {
  const pools = [];
  let place = 0;
  for (const line of bodyOf(bytes)) {
    const pool = /^pool (\d+): (\d+) bytes$/.exec(line);
    if (pool) {
      place = numberOf(pool[1]);
      pools.push([place, numberOf(pool[2]), []]);
      continue;
    }
    const [start, size, state] = line.split(" ");
    if (Number(start) !== place) throw new Differs(`the numbers differ in the walk: a block at ${start}, and not at ${place}`);
    place += Number(size);
    pools[pools.length - 1][2].push((state === "used" ? 1 : -1) * Number(size) / UNIT);
  }
  return pools;
}

// The step of `fit` for a long log, so that it tries as few sizes as its time allows; nothing where its own will do. A line takes some
// tenths of a microsecond, more where many blocks are held (docs/SPEED.md).
function coarseStep(lines, blocks, peak) {
  const seconds = lines * (0.12 + 0.07 * (blocks / 1000) ** 0.5) / 1_000_000;
  const tries = seconds ? Math.trunc(SECONDS_TO_FIT / seconds) : 64;
  if (tries >= 64) return null;
  const step = Math.ceil(peak / Math.max(tries, 3));
  return Math.min(MOST_POOL, Math.max(UNIT, Math.ceil(step / UNIT) * UNIT));
}

// The lines that the timeline tells: 0, that of the peak, and so many in even steps.
function pointsOf(lines, peak, count) {
  const steps = Array.from({ length: count }, (_, step) => Math.ceil((step + 1) * lines / count));
  return [...new Set([0, peak, ...steps])].sort((one, other) => one - other);
}
