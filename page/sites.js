// ---- sites, and the groups that they are told by

const CHOICES = { function: data.named ? "function" : "return address", namespace: "namespace or crate", file: "file", module: "module", stack: "whole stack" };
// What many of them are called, where that isn't with an s.
const MANY = { function: `${CHOICES.function}${data.named ? "" : "e"}s`,
  namespace: "namespaces or crates" };
const MEASURES = ["Bytes at the peak", "Bytes at the end", "Calls", "Temporary blocks"];
// Where each measure stands among the totals of a row.
const PLACES = [0, 2, 4, 6];
const MOST_STACKS = 10;

// A row is a site that is told one by one, or the other sites of a function together.
function rowsWith(count, rests) {
  const sites = Array.from({ length: count }, (_, site) => ({ site, of: data.sites[site][0], count: 1 }));
  return [...sites, ...rests.map(([of, count]) => ({ site: -1, of, count }))];
}

const isLog = Boolean(data.sites);
const totalRows = isLog ? rowsWith(data.sites.length, data.rests) : [];
const changeRows = isLog ? rowsWith(data.followed, data.changeRests) : [];
let choice = "function";

const framesOf = (site) => data.sites[site].slice(1).map((frame) => data.names[frame]);
const briefOf = (frame) => data.briefs[frame] || data.names[frame];
// A frame in a tree: without its line, so that a function is one.
const inTree = (frame) => data.named ? briefOf(frame).replace(/:\d+$/, "") : briefOf(frame);
const framesInTree = (row) => row.site < 0 ? [`${counted(row.count, "other stack")} of ${data.functions[row.of][0]}`]
  : data.sites[row.site].slice(1).map(inTree);

// The outermost namespace of a function of C++, or the crate of one of Rust, as `net` of `net::Pool::accept`, and `net` of
// `<net::Pool as core::clone::Clone>::clone`. A function without one is told by its file.
function namespaceOf([, name, file]) {
  const found = data.named && /^<?[&*[]*(?:mut |dyn )?([A-Za-z_]\w*)::/.exec(name);
  return found ? found[1] : file;
}

function keyOf(row) {
  const of = data.functions[row.of], [, , file, module] = of;
  if (choice === "stack") return row.site < 0 ? `other ${row.of}` : row.site;
  return { function: row.of, namespace: namespaceOf(of), file, module }[choice];
}

function nameOf(row) {
  const of = data.functions[row.of], [label, , file, module] = of;
  if (choice !== "stack") return { function: label, namespace: namespaceOf(of), file, module }[choice];
  if (row.site < 0) return `${counted(row.count, "other stack")} of ${label}`;
  return data.sites[row.site].length === 2 ? framesOf(row.site)[0] : `${briefOf(data.sites[row.site][1])} … (${label})`;
}

// The groups of some rows, each with its rows and the sums of their numbers.
function grouped(rows, numbers) {
  const groups = new Map();
  rows.forEach((row, at) => {
    const key = keyOf(row);
    const group = groups.get(key) || { key, told: nameOf(row), rows: [], numbers: numbers[at].map(() => 0) };
    group.rows.push(row);
    group.numbers = group.numbers.map((sum, place) => plus(sum, numbers[at][place]));
    groups.set(key, group);
  });
  return [...groups.values()];
}

// ---- a site in a table: its short name, and its stacks where it is clicked

function foundIn(group) {
  return [...new Set(group.rows.slice(0, 50).map((row) => data.functions[row.of][1]))].join(" ");
}

function siteElement(group) {
  const sites = group.rows.filter((row) => row.site >= 0);
  if (choice === "stack" && group.rows[0].site >= 0 && data.sites[group.rows[0].site].length === 2) return isolated(group.told);
  const button = make("button", { type: "button", class: "site", "aria-expanded": "false" }, isolated(group.told));
  const home = make("div", {}, button);
  button.addEventListener("click", () => {
    const open = button.getAttribute("aria-expanded") === "true";
    button.setAttribute("aria-expanded", String(!open));
    if (open) home.lastChild.remove();
    else home.append(stacksElement(group, sites));
  });
  return home;
}

function stacksElement(group, sites) {
  const byTotal = (place) => fallingBy(({ site }) => data.totals[site][place]);
  const [byPeak, byAsked] = [0, 5].map(byTotal);
  const greatest = [...sites].sort((one, other) => byPeak(one, other) || byAsked(one, other));
  const home = make("div", { class: "stacks" });
  greatest.slice(0, MOST_STACKS).forEach(({ site }) => home.append(stackElement(site)));
  const more = group.rows.reduce((sum, row) => sum + row.count, 0) - Math.min(greatest.length, MOST_STACKS);
  if (more) home.append(make("p", { class: "hint" }, `${counted(more, "other stack")}`));
  return home;
}

function stackElement(site) {
  const [peak, , end, , calls] = data.totals[site];
  const raw = data.raw[site] ? `, ${data.raw[site]} in the log` : "";
  return make("div", {}, make("p", { class: "hint" }, `${told(peak)} at the peak, ${told(end)} at the end, ${counted(calls, "call")}${raw}:`),
    make("ol", { class: "stack" }, ...framesOf(site).map((frame) => make("li", {}, isolated(frame)))));
}

const SITE = { name: "Function", text: true, show: (group) => group.told, element: siteElement, found: foundIn };

// ---- what is told between two points

const NOTHING = [0, 0, 0, 0, 0, 0, 0];
const [BEFORE, AFTER, BLOCKS_BEFORE, BLOCKS_AFTER, CALLS, ASKED, TEMPORARY] = NOTHING.keys();

// Of each group what is held before and after, and the calls in between.
function between(from, to) {
  if (from === 0 && to === data.points.length - 1) {
    return grouped(totalRows, data.totals.map(([, , after, blocks, calls, asked, temporary]) => [0, after, 0, blocks, calls, asked, temporary]));
  }
  return grouped(changeRows, data.changes.map((changes) => changesBetween(changes, from, to)));
}

function changesBetween(changes, from, to) {
  const sums = [...NOTHING], add = (place, more) => { sums[place] = plus(sums[place], more); };
  for (let at = 0; at < changes.length && changes[at] <= to; at += 6) {
    const [, bytes, blocks, calls, asked, temporary] = changes.slice(at, at + 6);
    add(AFTER, bytes);
    add(BLOCKS_AFTER, blocks);
    if (changes[at] <= from) {
      add(BEFORE, bytes);
      add(BLOCKS_BEFORE, blocks);
    } else {
      add(CALLS, calls);
      add(ASKED, asked);
      add(TEMPORARY, temporary);
    }
  }
  return sums;
}

function sizeName(power) {
  if (power < 2) return String(power);
  const least = 2n ** BigInt(power - 1);
  return `${told(least)} to ${told(2n * least - 1n)}`;
}

function sizesBetween(from, to) {
  return data.sizes.map(([power, changes]) => {
    let calls = 0, asked = 0;
    for (let at = 0; at < changes.length; at += 3) {
      if (changes[at] > from && changes[at] <= to) {
        calls += changes[at + 1];
        asked = plus(asked, changes[at + 2]);
      }
    }
    return [2 ** power, calls, asked];
  }).filter((row) => row[1]);
}
