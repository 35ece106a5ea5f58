// The page of two logs: what grew by function, as page/comparison.py makes it.
"use strict";

const MOST_NAMES = 5000, MOST_LETTERS = 1_200_000;
const signed = (number) => (number < 0 ? "" : "+") + told(number);

// The bytes of a text, a letter each: these stand in the order of the text's own letters.
const bytesOf = (text) => Array.from(new TextEncoder().encode(text), (byte) => String.fromCharCode(byte)).join("");

// What a site is compared by: its function and file, and no line, since a line that is inserted moves those behind it.
const nameOf = ({ short, file }) => [short, file].filter(Boolean).join(" ") || NO_LOCATION;

// Bytes at the end and at the peak, and calls, of the sites of each function.
function sumsByName(log) {
  const sums = new Map();
  log.locations.forEach((location, site) => {
    const name = nameOf(log.sites[site]), numbers = [(log.atEnd.get(location) || [0])[0], (log.atPeak.get(location) || [0])[0], log.calls[site]];
    sums.set(name, added(sums.get(name) || [0, 0, 0], numbers));
  });
  return sums;
}

// For each name what grew at the end and at the peak, and calls: each as growth, old, new; those that grew most first.
function rowsOf(old, fresh) {
  const one = sumsByName(old), other = sumsByName(fresh), none = [0, 0, 0];
  const rows = [...new Set([...one.keys(), ...other.keys()])].map((name) => {
    const before = one.get(name) || none, after = other.get(name) || none;
    const numbers = before.flatMap((number, at) => [minus(after[at], number), number, after[at]]);
    return { name, bytes: bytesOf(name), numbers };
  });
  const [atEnd, atPeak] = [0, 3].map((at) => fallingBy(({ numbers }) => numbers[at]));
  return rows.sort((a, b) => atEnd(a, b) || atPeak(a, b) || (a.bytes < b.bytes ? -1 : 1));
}

// The rows for which there is room, and the rest as one: those that changed least.
function keptRows(rows) {
  const size = (number) => number < 0 ? -number : number;
  const change = ({ numbers }) => mostOf([0, 3, 6].map((at) => size(numbers[at])));
  const order = [...rows].sort(fallingBy(change)), kept = [];
  let text = 0;
  for (const { name, numbers } of order.slice(0, MOST_NAMES)) {
    text += Array.from(name).length;
    if (text > MOST_LETTERS) break;
    kept.push([name, ...numbers]);
  }
  const rest = order.slice(kept.length);
  if (rest.length) {
    kept.push([`${counted(rest.length, "other function")} together`, ...rest.map(({ numbers }) => numbers).reduce(added)]);
  }
  return kept;
}

// What both logs come out as, in all.
function allRows(old, fresh) {
  const logs = [old, fresh], both = (number) => logs.map(number), fits = old.fits && fresh.fits;
  const pairs = [["Lines", both((log) => log.lines)], ["Sites", both((log) => log.locations.length)],
    ["Functions", both((log) => log.functions.all.length)], ["Calls", both((log) => sumOf(log.calls))],
    ["Bytes asked for", both((log) => sumOf(log.asked))]];
  for (const [name, rows] of [["at the peak", both((log) => log.rows[log.peakRow])], ["at the end", both((log) => log.rows[log.rows.length - 1])]]) {
    ["Bytes", "Blocks", ...fits ? ["Reach"] : []].forEach((what, at) => pairs.push([`${what} ${name}`, rows.map((row) => row[at + 1])]));
  }
  return pairs.map(([name, [before, after]]) => [name, before, after, minus(after, before)]);
}

// A number that was another.
const changeWords = ([, before, after, grown]) => `${told(before)} bytes, now ${told(after)} (${signed(grown)}).`;

// The function that grew most, the first of these, in words.
function grownWords(rows, at) {
  const most = rows.reduce((one, other) => !one || other.numbers[at] > one.numbers[at] ? other : one, null);
  if (!most || most.numbers[at] <= 0) return "No function.";
  const [grown, before, after] = most.numbers.slice(at);
  return `most at ${most.name}: ${told(before)} bytes, now ${told(after)} (${signed(grown)}).`;
}

// Plain lines: what was read, what grew, and what a heap refused.
function headOf(old, fresh, rows, all) {
  const row = (name) => all.find(([own]) => own === name);
  return [["Read", `${old.name}: ${counted(old.lines, "line")}; ${fresh.name}: ${counted(fresh.lines, "line")}.`],
    ["Peak", changeWords(row("Bytes at the peak"))], ["Not freed", changeWords(row("Bytes at the end"))],
    ["Grew at the end", grownWords(rows, 0)], ["Grew at the peak", grownWords(rows, 3)],
    ...[old, fresh].filter((log) => !log.fits).map((log) => ["Refused", `${log.name}: one heap refuses ${counted(log.refused, "line")}, `
      + `the first is line ${told(log.firstRefused)}. The sums here are those without a heap.`])];
}

// The head's lines.
function headHtml(lines) {
  return lines.map(([name, text]) => `<p><b>${escaped(name)}</b> <span id="${name.toLowerCase().replaceAll(" ", "-")}"><bdi>${escaped(text)}</bdi></span></p>\n`).join("");
}

function comparisonOf(documents, old, fresh) {
  const rows = rowsOf(old, fresh), all = allRows(old, fresh);
  const data = { rows: keptRows(rows), all, points: [old, fresh].map((log) => log.rows.map((row) => row.slice(0, 3))) };
  return pageText(documents, "comparison", `${old.name} and ${fresh.name}: what grew`, data, {
    head: headHtml(headOf(old, fresh, rows, all)), old: escaped(`${old.name} (old)`), new: escaped(`${fresh.name} (new)`) });
}
