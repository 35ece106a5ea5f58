// ---- the page of one log

function pointTable() {
  const columns = ["Line", "Bytes", "Blocks", ...(data.fits ? ["Reach", "Free", "Largest free"] : [])].map(number);
  new Table(find("table-points"), "After each line drawn", columns, 0, false).set(data.points);
}

// The bytes that the chart draws.
function bandTable() {
  const table = new Table(find("table-top"), "Bytes of what is drawn", [number("Line")], 0, false);
  return (bands) => {
    table.setColumns([number("Line"), ...bands.map((band) => number(band.told))]);
    table.set(data.points.map(([line], point) => [line, ...bands.map((band) => band.values[point])]));
  };
}

function blockTable(home, pools, title) {
  const rows = [];
  eachBlock(pools, (place, bytes, used) => rows.push([place, bytes, used ? "used" : "free"]));
  new Table(home, title, [number("Place"), number("Bytes"), { name: "State", text: true }], 0, false).set(rows);
}

function peakTable() {
  const table = new Table(find("table-peak"), "Held at the peak", [SITE, number("Bytes"), number("Blocks"), share("Of all bytes")], 1);
  return () => {
    const groups = grouped(totalRows, data.totals);
    const all = sumOf(groups.map((group) => group.numbers[0]));
    const held = groups.filter(({ numbers }) => numbers[1]);
    table.set(held.map((group) => {
      const [bytes, blocks] = group.numbers;
      return [group, bytes, blocks, shareOf(bytes, all)];
    }));
  };
}

// Of each group what isn't freed: sums of bytes and blocks, the first and last line, the least and the greatest size. In front of these
// stands what is lost, possibly lost and still reachable, where that is known.
function leakTable() {
  const parts = data.lost ? PARTS : [];
  const columns = [SITE, ...[...parts, "Bytes", "Blocks", "First line", "Last line", "Least size", "Greatest size"].map(number)];
  const table = new Table(find("table-leaks"), "Not freed", columns, 1);
  return () => {
    const groups = new Map();
    for (const [at, bytes, blocks, first, last, least, most, ...lost] of data.leaks) {
      const row = totalRows[at], key = keyOf(row);
      const [group, sums, apart] = groups.get(key) || [{ key, told: nameOf(row), rows: [] }, [0, 0, first, last, least, most], lost.map(() => 0)];
      group.rows.push(row);
      groups.set(key, [group, [plus(sums[0], bytes), sums[1] + blocks, Math.min(sums[2], first),
        Math.max(sums[3], last), leastOf([sums[4], least]), mostOf([sums[5], most])],
      apart.map((sum, place) => plus(sum, lost[place]))]);
    }
    // Where nothing more is lost, those first that hold most.
    const inOrder = [...groups.values()].sort(fallingBy(([, [bytes]]) => bytes));
    table.set(inOrder.map(([group, sums, apart]) => [group, ...apart, ...sums]));
  };
}

function tablesOfRange() {
  const tables = {
    grown: new Table(find("table-grown"), "Grown", [SITE, grown("Grown by"), number("Bytes before"), number("Bytes after"),
      number("Blocks before"), number("Blocks after")], 1).folding(
      ([, bytes, , , before, after]) => !bytes && before === after,
      (count) => `${counted(count, CHOICES[choice], MANY[choice])} without a change`),
    calls: new Table(find("table-calls"), "Calls", [SITE, number("Calls"), number("Bytes asked for")], 1),
    temporary: new Table(find("table-temporary"), "Temporary", [SITE, number("Temporary blocks"), number("Calls"), share("Of the calls")], 1),
    sizes: new Table(find("table-sizes"), "Sizes", [{ name: "Bytes of a block", show: (size) => sizeName(Math.log2(size)) }, number("Calls"),
      number("Bytes asked for")], 0, false),
  };
  return (from, to) => showRange(tables, from, to);
}

function showRange(tables, from, to) {
  const groups = between(from, to);
  const range = `lines ${told(data.points[from][0] + (from < to ? 1 : 0))} to ${told(data.points[to][0])}`;
  tables.grown.set(groups.filter(({ numbers }) => numbers[CALLS] || numbers[BEFORE] || numbers[AFTER]).map((group) => [group,
    minus(group.numbers[AFTER], group.numbers[BEFORE]), ...group.numbers.slice(0, 4)]),
  `Grown by ${CHOICES[choice]}, ${range}`);
  tables.calls.set(groups.filter(({ numbers }) => numbers[CALLS]).map((group) => [group, group.numbers[CALLS], group.numbers[ASKED]]),
    `Calls by ${CHOICES[choice]}, ${range}`);
  tables.temporary.set(groups.filter(({ numbers }) => numbers[TEMPORARY]).map((group) => [group, group.numbers[TEMPORARY], group.numbers[CALLS],
    Math.min(1, group.numbers[TEMPORARY] / group.numbers[CALLS])]), `Temporary: freed by the very next line, ${range}`);
  tables.sizes.set(sizesBetween(from, to), `Sizes, ${range}`);
}

function heapTables() {
  if (data.fits) {
    blockTable(find("table-blocks-peak"), data.heaps[0], "Blocks at the peak");
    blockTable(find("table-blocks-end"), data.heaps[1], "Blocks at the end");
  }
  find("blocks").hidden = !data.fits;
  const words = data.fits ? "How large a pool, and how many records: the report of fit" : "Heaps by size: the report of fit --heaps 4";
  new Table(find("table-fit"), words + (data.step ? ` --step ${data.step}` : ""),
    [{ name: "Of", text: true }, { name: "Number", text: true }]).set(data.fit);
}

function showLog() {
  showHead();
  const range = tablesOfRange(), bands = bandTable(), byGroup = [peakTable(), leakTable()];
  const chart = new Chart(range);
  const show = () => {
    SITE.name = CHOICES[choice][0].toUpperCase() + CHOICES[choice].slice(1);
    tables.filter((table) => table.columns[0] === SITE).forEach((table) => table.setColumns(table.columns));
    bands(chart.bands);
    byGroup.forEach((table) => table());
  };
  find("choice").append(chooser("Tell by", CHOICES, (chosen) => {
    choice = chosen;
    showHead();
    chart.regroup();
    chart.choose(...chart.range);
    show();
  }));
  show();
  pointTable();
  new Tree(find("tree"));
  new Flame(find("flame"));
  showHeaps();
  window.addEventListener("resize", showHeaps);
  heapTables();
  find("faults").hidden = !data.faulty;
  new Table(find("table-diagnostics"), `The first ${told(data.diagnostics.length)} of ${counted(data.faulty, "diagnostic")}`,
    [number("Line"), { name: "What is wrong", text: true }], 0, false).set(data.diagnostics);
}

