// ---- the page of two logs

// The bytes of both logs over the share of each that was read, drawn for the width that there is.
function drawTwo() {
  const svg = find("chart"), most = Number(mostOf(data.points.flat().map((point) => point[1])));
  const frame = new Frame(svg.parentElement, 100, most);
  const curves = data.points.map((points, which) => {
    const lines = points.map(([line]) => 100 * line / Math.max(points[points.length - 1][0], 1));
    return draw("path", { class: which ? "line new" : "line old", d: frame.steps(lines, points.map((point) => point[1])) });
  });
  svg.setAttribute("viewBox", `0 0 ${frame.width} ${frame.height}`);
  svg.replaceChildren(...frame.axes((part) => `${part} %`, "share of each log's lines"), ...curves);
}

// A row with its numbers.
const exactRow = ([name, ...numbers]) => [name, ...exact(numbers)];

function showTwo() {
  window.addEventListener("resize", drawTwo);

  const columns = [{ name: "Function", text: true }, grown("Grown at the end"), number("End, old"), number("End, new"), grown("Grown at the peak"),
    number("Peak, old"), number("Peak, new"), grown("More calls"), number("Calls, old"), number("Calls, new")];
  new Table(find("table-two"), "By function, in bytes", columns, 1)
    .folding(([, atEnd, , , atPeak, , , calls]) => !atEnd && !atPeak && !calls,
      (count) => `${counted(count, "function")} without a change`)
    .set(data.rows.map(exactRow));
  new Table(find("table-all"), "In all", [{ name: "Of", text: true }, number("Old"), number("New"),
    grown("Grown by")]).set(data.all.map(exactRow));
  const points = data.points.flatMap((log, which) => log.map((point) => [which ? "new" : "old", ...point]));
  new Table(find("table-points"), "After each line drawn", [{ name: "Log", text: true }, number("Line"), number("Bytes"), number("Blocks")])
    .set(points);
}

if (data.rows) showTwo();
else showLog();
// What was drawn before a scroll bar took its width is drawn anew.
window.dispatchEvent(new Event("resize"));
document.body.dataset.shown = "whole";
