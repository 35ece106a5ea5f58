// ---- the head: what was read, who holds the peak, what isn't freed, who grows, and the pools to give

// How many groups are named, and how many are looked at for those that grow.
const NAMED = 3, MOST_LOOKED_AT = 1000;
const KIND_NAMES = ["too long", "not a line", "not held", "already held", "refused", "half of a reallocation", "no < before >"];

// The groups that hold most, by one of their numbers, in words, each with its share.
function greatest(groups, place) {
  const held = groups.map((group) => [group.numbers[place], group.told]);
  const byName = ([, one], [, other]) => one < other ? -1 : 1;
  held.sort((one, other) => falling(one[0], other[0]) || byName(one, other));
  const whole = sumOf(held.map(([bytes]) => bytes));
  return held.slice(0, NAMED).filter(([bytes]) => bytes)
    .map(([bytes, name]) => `${name}: ${told(bytes)} (${percent(bytes, whole)})`).join("; ");
}

// ---- who grows steadily
//
// A step leads from one line that is drawn to the next. The end of the log is made of its last steps that free at least two blocks for
// each that they ask for, and of the step before these. It isn't looked at, nor is the first tenth of the lines before it, in which a
// program starts. The rest is cut in eight parts of equally many lines. The floor of a part is the least that a group holds at a line
// drawn from the part's begin on. So a burst, however great, leaves no trace where it is over, and bytes that rise and fall have no floor.
// A group grows steadily where its floor rises from each quarter to the next.
const EIGHTHS = 8, FREED_FOR_ONE = 2, MOST_GROWERS = 5;

// How many blocks are asked for in the step that leads to each point.
function callsOfSteps() {
  const calls = data.points.map(() => 0);
  data.changes.forEach((changes) => changes.forEach((point, at) => { if (at % 6 === 0) calls[point] += changes[at + 3]; }));
  return calls;
}

// The last point before the end of the log.
function pointBeforeEnd() {
  const calls = callsOfSteps(), blocks = data.points.map((point) => point[2]);
  const isOfEnd = (point) => calls[point] + blocks[point - 1] - blocks[point] >= FREED_FOR_ONE * calls[point];
  let point = data.points.length - 1;
  while (point > 0 && isOfEnd(point)) point--;
  return Math.max(point - 1, 0);
}

// The first point of each part, and the one behind the last part: the part k begins at 1/10 + 9/10 k/8 of the lines.
function beginsOfEighths(end) {
  const last = data.points[end][0];
  const begins = Array.from({ length: EIGHTHS }, (_, part) => data.points.findIndex(([line]) => 80 * line >= (8 + 9 * part) * last));
  return [...begins, end + 1];
}

// A group as it grows: its floors, and whether it holds at the end what it grew to.
function growthOf(group, begins) {
  const { numbers } = group, floorFrom = (begin) => leastOf(numbers.slice(begin, begins[EIGHTHS]));
  const floors = begins.slice(0, EIGHTHS).map(floorFrom);
  return { group, floors, isKept: numbers[numbers.length - 1] >= floors[EIGHTHS - 1] };
}

// By how much the floor rose up to a part, by default the last; those that rose most come first.
const rise = ({ floors }, part = EIGHTHS - 1) => minus(floors[part], floors[0]);
const inOrder = (growths, part) => growths.sort(fallingBy((growth) => rise(growth, part)));

function isSteady({ floors }) {
  const quarters = floors.filter((_, part) => part % 2 === 0);
  return quarters.every((floor, part) => part === 0 || floor > quarters[part - 1]);
}

// What growers came to hold, in words: the first of them, and how many more there are.
function growersWords(growers, heldBy, where) {
  const words = growers.slice(0, MOST_GROWERS).map(({ group, floors }) => `${group.told}: from ${counted(floors[0], "byte")} early on to ` +
    `${told(heldBy(group))}${where}`);
  const more = growers.length - MOST_GROWERS;
  return `${words.join("; ")}${more > 0 ? `; and ${told(more)} more` : ""}.`;
}

// What a group holds at the peak, or at the end, with those of its sites whose changes aren't told.
function heldAt({ key, numbers }, totals, place, point) {
  const whole = totals.find((group) => group.key === key);
  return whole ? whole.numbers[PLACES[place]] : numbers[point];
}

// Those that grow steadily, in words: those first that keep it to the end, and then those that give it back there.
function steadyWords(growers, end, totals) {
  const kept = growers.filter(({ isKept }) => isKept), given = growers.filter(({ isKept }) => !isKept);
  const until = `Until line ${told(data.points[end][0])}, where the program begins to give back what it holds: `;
  return [...kept.length ? [growersWords(kept, (group) => heldAt(group, totals, 1, data.points.length - 1), " at the end")] : [],
    ...given.length ? [until + growersWords(given, ({ numbers }) => numbers[end], "")] : []].join(" ");
}

// Where nothing grows steadily: who grew most up to the peak, and held that for the last quarter of the lines before it.
function mostGrownWords(groups, totals) {
  const none = `Nothing: no ${CHOICES[choice]} holds more and more all along.`, begins = beginsOfEighths(data.peak), quarter = EIGHTHS - 2;
  if (areTooFew(begins)) return none;
  const [most] = inOrder(groups.map((group) => growthOf(group, begins)), quarter);
  if (!most || rise(most, quarter) <= 0) return none;
  return `${none} Up to the peak ${most.group.told} grew most, from ${counted(most.floors[0], "byte")} early on to ` +
    `${told(heldAt(most.group, totals, 0, data.peak))}.`;
}

const areTooFew = (begins) => begins.some((begin, part) => begin >= begins[part + 1]);

// Who grows, in words. Of many groups those that held most are looked at.
function growsSteadily(groups, totals) {
  const end = pointBeforeEnd(), begins = beginsOfEighths(end);
  if (areTooFew(begins)) return "Not told: too few lines are drawn.";
  const held = groups.filter((group) => !areOthers(group));
  const looked = held.map((group) => [group, mostOf(group.numbers)])
    .sort(fallingBy(([, most]) => most)).slice(0, MOST_LOOKED_AT).map(([group]) => group);
  const growers = inOrder(looked.map((group) => growthOf(group, begins)).filter(isSteady));
  return growers.length ? steadyWords(growers, end, totals) : mostGrownWords(looked, totals);
}

// ---- the pools to give, by the report of fit

const isNumber = (text) => /^\d+$/.test(text || "");

// A pool's bytes, or nothing where there is none.
function poolBytes(fit, name) {
  const bytes = (fit[name] || "-").replace(/ bytes$/, "");
  return isNumber(bytes) ? `${told(Number(bytes))} bytes` : "";
}

// Which heaps by size serve a log, by the report of `fit --heaps`.
function partsWords(parts) {
  const sum = poolBytes(parts, "sum");
  if (!isNumber(parts.heaps)) return "No heaps by size serve it.";
  const heaps = `${counted(Number(parts.heaps), "heap")} by size`;
  return sum ? `${heaps} serve it, with ${sum} in all.` : `${heaps} don't serve it, either: one would need more blocks than a heap has.`;
}

function requestWords({ line, size, align, classSize, at }) {
  const aligned = align > 16 ? ` at a multiple of ${told(align)}` : "";
  return `line ${told(line)}: ${counted(size, "byte")}${aligned} (class size ${told(classSize)}) at ${at}`;
}

// What a log has to keep to, so that this one's sure pool serves it.
function withinWords(limits) {
  if (!limits) return "within this one's most blocks, most bytes in units of 16, and largest request with its alignment";
  return `of at most ${counted(limits.blocks, "block")} and ${counted(limits.bytes, "byte")} in units of 16, with no request above that of ` +
    requestWords(limits);
}

// What `fit` tells, in a line, and what the sure pool rests on.
function poolWords() {
  const { limits } = data.head, fit = Object.fromEntries(data.fit);
  if (!data.fits) {
    return `No single heap serves this log. ${partsWords(fit)}`;
  }
  const [sure, safe, least] = ["sure", "safe", "least"].map((name) => poolBytes(fit, `${name} pool`));
  const records = isNumber(fit.records) ? told(Number(fit.records)) : fit.records;
  const tried = data.step ? `, tried in steps of ${told(data.step)}` : "";
  const served = safe ? `safe ${safe}, for this log; least ${least}; ${records} records${tried}.`
    : "no single pool serves this log, as the largest refuses lines.";
  const needs = limits ? ` The log holds ${counted(limits.blocks, "block")}, and its largest request is that of ${requestWords(limits)}.` : "";
  return (sure ? `sure ${sure}; ` : "none is sure; ") + served + (sure ? ` The sure pool serves any log ${withinWords(limits)}.` : needs);
}

// ---- what the log lacks, a line each, in front of all others

// Whether the process went on without its log: what isn't freed there may have been freed later.
const wentOn = () => data.head.end === "left";

function lackLines() {
  const { end, missed, refused, firstRefused, sites, cutStacks } = data.head;
  return [
    wentOn() && ["Cut", "The log could not go on, and its process did: what was freed later " +
      "isn't known, so no leak is told."],
    missed && ["Lost", "The log's ring had no room for at least " +
      `${counted(exact(missed), "call")}, and they are lost.`],
    end === "ended" && ["No end", "A signal ended the process, or lines are missing: so what " +
      "isn't freed here may have been."],
    !data.fits && ["Refused", `One heap refuses ${counted(refused, "line")}, the first is line ` +
      `${told(firstRefused)}: sums here are those without a heap.`],
    cutStacks && ["Stacks cut", `The stacks of ${told(cutStacks)} of ${counted(sites, "site")} ` +
      "are cut: tlsf-trace --frames tells more of their calls."],
  ].filter(Boolean);
}

// ---- its lines

function readWords() {
  const { sites, kinds } = data.head;
  const each = kinds.flatMap((count, kind) => count ? [`${told(count)} ${KIND_NAMES[kind]}`] : []).join(", ");
  // Without names each site is a function for itself.
  const functions = data.named ? ` in ${counted(data.functions.length - 1, "function")}` : "";
  return `${data.log}: ${counted(data.lines, "line")}, ${counted(sites, "site")}${functions}, ` +
    (each ? `${counted(data.faulty, "diagnostic")}, the first of line ` +
      `${told(data.diagnostics[0][0])} (${each}).` : "no diagnostic.");
}

// The parts of what isn't freed, where they are known.
const PARTS = ["Lost", "Possibly lost", "Still reachable"];

// A part of what isn't freed: `Lost: 300 bytes in 3 blocks, keep shop.c: 300 (100 %).`
function partWords(name, [bytes, blocks], holders) {
  if (!blocks) return `${name}: nothing.`;
  return `${name}: ${counted(bytes, "byte")} in ${counted(blocks, "block")}${holders ? `, ${holders}` : ""}.`;
}

// Who holds what isn't freed; where it is known what of that is lost, each part for itself.
function notFreedWords(groups) {
  if (!data.lost) return `${greatest(groups, PLACES[1]) || "All of 0 bytes"}. To see which of it is lost, trace it by tlsf-trace --reachable.`;
  const lostOf = new Map(data.leaks.map(([row, ...numbers]) => [row, numbers.slice(-PARTS.length)]));
  const apart = grouped(totalRows, totalRows.map((_, at) => lostOf.get(at) || PARTS.map(() => 0)));
  return PARTS.map((name, part) => partWords(name, data.lost[part], greatest(apart, part))).join(" ");
}

// Where programs have no lines their functions are told by place: a sentence says so, and what helps.
function bareLines() {
  const { bare } = data.head;
  return bare ? [["Without lines", `${bare[0].toUpperCase()}${bare.slice(1)}.`]] : [];
}

// Where nothing is held at the end. A log without a block is no sign that nothing leaks: the program may have its own malloc.
function noneHeldWords() {
  if (!data.head.sites) return "Nothing is known: no line of the log asks for memory.";
  return wentOn() ? "Nothing where the log is cut." : "Nothing: no memory leaks.";
}

// What is held at the end of the log.
function heldWords(groups, [, bytes, blocks]) {
  const held = `${counted(bytes, "byte")} in ${counted(blocks, "block")}`;
  return wentOn() ? `Not known. Where the log is cut ${held} were held: ${greatest(groups, PLACES[1]) || "all of 0 bytes"}.`
    : `${held}. ${notFreedWords(groups)}`;
}

// The head's lines, each with its name, by the groups that are chosen.
function headLines() {
  const groups = grouped(totalRows, data.totals), atPeak = data.points[data.peak], atEnd = data.points[data.points.length - 1];
  const holders = atPeak[1] ? `. ${greatest(groups, PLACES[0])}` : "";
  return [
    ["Read", readWords()],
    ...bareLines(),
    ["Peak", `${counted(atPeak[1], "byte")} in ${counted(atPeak[2], "block")}, after line ${told(atPeak[0])}${holders}.`],
    ["Not freed", atEnd[2] ? heldWords(groups, atEnd) : noneHeldWords()],
    ["Grows steadily", growsSteadily(seriesOf(), groups)],
    ["Pools to give", poolWords()],
  ];
}

// Lines as elements, with an attribute of each.
function lineElements(lines, look) {
  return lines.map(([name, words]) => make("p", look, make("b", {}, name), " ",
    make("span", { id: name.toLowerCase().replaceAll(" ", "-") }, isolated(words))));
}

function showHead() {
  find("head").replaceChildren(...lineElements(lackLines(), { class: "lack" }),
    ...lineElements(headLines(), {}));
}
