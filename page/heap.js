// ---- the heap's blocks, drawn by place

const HEAP_ROW = 16, HEAP_GAP = 4, MOST_HEAP_ROWS = 8, SHADES = 4;

// Calls `take` for each block of the pools: its place, its bytes, and whether it is used.
function eachBlock(pools, take) {
  for (const [base, , blocks] of pools) {
    let place = base;
    for (const units of blocks) {
      take(place, 16 * Math.abs(units), units > 0);
      place += 16 * Math.abs(units);
    }
  }
}

// Place and end of each row of used blocks without a gap, and the places where blocks meet in them.
function runsOf(pools) {
  const runs = [], meets = [];
  eachBlock(pools, (place, bytes, used) => {
    const last = runs[runs.length - 1];
    if (!used) return;
    if (last && last[1] === place) {
      last[1] += bytes;
      meets.push(place);
    } else runs.push([place, place + bytes]);
  });
  return { runs, meets };
}

// The greatest end of a used block.
function reachOf(pools) {
  const { runs } = runsOf(pools);
  return runs.length ? runs[runs.length - 1][1] : 0;
}

// How much of each dot is used.
function coverOf(runs, width, dots) {
  const shares = new Float64Array(dots);
  for (const [start, end] of runs) {
    const last = Math.min(Math.floor((end - 1) / width), dots - 1);
    for (let dot = Math.floor(start / width); dot <= last; dot++) {
      shares[dot] += (Math.min(end, (dot + 1) * width) - Math.max(start, dot * width)) / width;
    }
  }
  return shares;
}

// For each shade the path of its dots in a row, neighbours as one.
function addShades(paths, shares, row) {
  const levels = [...shares].map((share) => Math.min(SHADES, Math.ceil(Math.round(share * 1000) * SHADES / 1000)));
  let begin = 0;
  for (let dot = 1; dot <= levels.length; dot++) {
    if (dot < levels.length && levels[dot] === levels[begin]) continue;
    if (levels[begin]) paths[levels[begin]] += `M${begin} ${row * (HEAP_ROW + HEAP_GAP)}h${dot - begin}v${HEAP_ROW}h${begin - dot}z`;
    begin = dot;
  }
}

// The places up to the extent, row by row, across so many dots: used bytes in colour, the fainter the fewer of a dot, over free ones.
function heapParts(pools, extent, rows, across) {
  const width = Math.max(extent, 1) / (across * rows), { runs, meets } = runsOf(pools), high = HEAP_ROW + HEAP_GAP;
  const shares = coverOf(runs, width, across * rows), paths = Array(SHADES + 1).fill(""), parts = [];
  for (let row = 0; row < rows; row++) {
    parts.push(draw("rect", { class: "free", y: row * high, width: across, height: HEAP_ROW }));
    addShades(paths, shares.subarray(row * across, (row + 1) * across), row);
  }
  paths.forEach((d, level) => { if (d) parts.push(draw("path", { class: "used", "fill-opacity": 0.25 + 0.75 * level / SHADES, d })); });
  if (meets.length <= across * rows / 8) {
    const edges = meets.map((place) => `M${place / width % across} ${Math.floor(place / width / across) * high}v${HEAP_ROW}`);
    parts.push(draw("path", { class: "edge", d: edges.join("") }));
  }
  return { parts, width };
}

// A heap as a picture that is as wide as its home.
function heapPicture(home, pools, extent, words) {
  const left = widthOf(home) < 600 ? 64 : 80, across = Math.floor(widthOf(home)) - left - 16, high = HEAP_ROW + HEAP_GAP;
  const rows = Math.max(1, Math.min(MOST_HEAP_ROWS, Math.floor(extent / 2048)));
  const { parts, width } = heapParts(pools, extent, rows, across);
  const labels = Array.from({ length: rows }, (_, row) => draw("text", { x: left - 6, y: row * high + 12, "text-anchor": "end" }, told(Math.round(row * across * width))));
  return draw("svg", { class: "drawing heap", viewBox: `0 -2 ${left + across + 16} ${rows * high + 2}`, role: "img", "aria-label": words },
    ...labels, draw("g", { transform: `translate(${left} 0)` }, ...parts));
}

// How far and how scattered a heap's blocks lie, in a line.
function heapWords(name, [line, bytes, blocks, reach, free, largest], pools) {
  const pieces = [];
  eachBlock(pools, (place, size, used) => { if (!used && place < reach) pieces.push(size); });
  return `${name}, line ${told(line)}: ${counted(bytes, "byte")} held in ${counted(blocks, "block")}; reach ${told(reach)}. Below that: ` +
    `${counted(pieces.length, "free block")}, ${counted(pieces.reduce((sum, size) => sum + size, 0), "byte")}, the largest ` +
    `${told(pieces.reduce((most, size) => Math.max(most, size), 0))}. Largest free block: ${told(largest)}; free in all: ${told(free)}.`;
}

// Both heaps, with the same extent; or why there are none.
function showHeaps() {
  const home = find("heaps"), { refused, firstRefused } = data.head;
  if (!data.fits) {
    home.replaceChildren(make("p", {}, `The log doesn't fit one heap: the one tried refuses ${counted(refused, "line")}, first line ` +
      `${told(firstRefused)}. All sums of this page are those without a heap. Heaps by size are told below.`));
    return;
  }
  const extent = Math.max(...data.heaps.map(reachOf)), rows = [data.points[data.peak], data.points[data.points.length - 1]];
  const drawings = ["At the peak", "At the end"].flatMap((name, at) => {
    const words = heapWords(name, rows[at], data.heaps[at]);
    return [make("p", {}, words), heapPicture(home, data.heaps[at], extent, words)];
  });
  home.replaceChildren(make("p", { class: "hint" }, "Used blocks by place, over free ones. A fainter dot is used in part."), ...drawings);
}
