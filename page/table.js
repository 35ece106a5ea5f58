// A table that can be sorted and searched. It shows the first rows, and more where they are asked for. A column has a name; `text`
// where it isn't of numbers; perhaps `show`, which tells a value, `element`, which shows it, and `found`, where it is searched, too.
const ROWS_AT_ONCE = 15, MORE_ROWS = 500;

class Table {
  constructor(home, title, columns, sorted = -1, falling = true) {
    this.columns = columns;
    this.sorted = sorted;
    this.falling = falling;
    this.most = ROWS_AT_ONCE;
    this.search = make("input", { type: "search", placeholder: "Search", "aria-label": `Search: ${title}` });
    this.count = make("output");
    this.more = make("button", { type: "button" }, "More rows");
    this.body = make("tbody");
    this.heads = columns.map((column, at) => this.head(column, at));
    this.caption = make("caption", {}, title);
    this.headRow = make("tr", {}, ...this.heads);
    const table = make("table", {}, this.caption, make("thead", {}, this.headRow), this.body);
    home.append(make("div", { class: "scroll", tabindex: 0, role: "group", "aria-label": title || "A table" }, table), make("div", { class: "tools" }, this.search, this.count, this.more));
    tables.push(this);
    this.isStill = () => false;
    this.search.addEventListener("input", () => this.show());
    this.more.addEventListener("click", () => { this.most += MORE_ROWS; this.show(); });
  }

  head(column, at) {
    const button = make("button", { type: "button" }, isolated(column.name));
    button.addEventListener("click", () => {
      this.falling = this.sorted === at ? !this.falling : !column.text;
      this.sorted = at;
      this.show();
    });
    return make("th", { scope: "col", class: column.text ? "text" : "number" }, button);
  }

  // Rows of which this holds are folded to one, which tells how many they are. A search finds them.
  folding(isStill, words) {
    this.isStill = isStill;
    this.stillWords = words;
    this.fold = make("button", { type: "button", class: "fold", "aria-expanded": "false" });
    this.fold.addEventListener("click", () => {
      this.fold.setAttribute("aria-expanded", String(!this.isOpen()));
      this.show();
      this.fold.focus();
    });
    return this;
  }

  isOpen() {
    return this.fold.getAttribute("aria-expanded") === "true";
  }

  // The line of those that are folded, and below it they themselves where it is open.
  stillLines(rows) {
    if (!rows.length) return [];
    this.fold.replaceChildren(this.stillWords(rows.length));
    const cell = make("td", { class: "text", colspan: this.columns.length }, this.fold);
    return [make("tr", {}, cell), ...this.firstLines(this.isOpen() ? rows : [])];
  }

  firstLines(rows) {
    return rows.slice(0, this.most).map((row) => this.line(row));
  }

  // Other names for columns and rows.
  setColumns(columns) {
    this.columns = columns;
    this.heads = columns.map((column, at) => this.head(column, at));
    this.headRow.replaceChildren(...this.heads);
  }

  set(rows, title) {
    this.rows = rows;
    if (title) this.caption.textContent = title;
    this.show();
  }

  cell(column, value) {
    if (column.text) return column.show ? column.show(value) : value;
    return column.show ? column.show(value) : told(value);
  }

  found() {
    const wanted = this.search.value.toLowerCase();
    if (!wanted) return [...this.rows];
    const holds = (column, value) => `${this.cell(column, value)} ${column.found ? column.found(value) : ""}`.toLowerCase().includes(wanted);
    return this.rows.filter((row) => this.columns.some((column, at) => holds(column, row[at])));
  }

  show() {
    const rows = this.inOrder(this.found()), at = this.sorted;
    const isFolded = (row) => !this.search.value && this.isStill(row);
    const still = rows.filter(isFolded), changed = rows.filter((row) => !isFolded(row));
    this.heads.forEach((head, column) => head.setAttribute("aria-sort",
      column === at ? (this.falling ? "descending" : "ascending") : "none"));
    this.body.replaceChildren(...this.firstLines(changed), ...this.stillLines(still));
    this.tellCount([changed.length, still.length && this.isOpen() ? still.length : 0]);
  }

  // How many rows there are, and of how many parts the first ones are shown.
  tellCount(parts) {
    const all = sumOf(parts), shown = sumOf(parts.map((count) => Math.min(count, this.most)));
    this.count.textContent = (shown < all ? `${told(shown)} of ` : "") + counted(all, "row");
    this.more.hidden = shown === all;
  }

  // The rows as they are sorted: as they came, where no column is.
  inOrder(rows) {
    const at = this.sorted, column = this.columns[at], sign = this.falling ? -1 : 1;
    if (!column) return rows;
    const key = column.text ? (row) => this.cell(column, row[at]) : (row) => row[at];
    const compare = ([one], [other]) => sign * (one < other ? -1 : one > other ? 1 : 0);
    return rows.map((row) => [key(row), row]).sort(compare).map(([, row]) => row);
  }

  line(row) {
    return make("tr", {}, ...this.columns.map((column, at) => make("td",
      { class: column.text ? "text" : "number" },
      column.element ? column.element(row[at]) : column.text ? isolated(this.cell(column, row[at])) : this.cell(column, row[at]))));
  }
}

// All of the first rows are there on paper.
const tables = [];
window.addEventListener("beforeprint", () => tables.forEach((table) => { table.most = Math.max(table.most, 50); table.show(); }));

const number = (name) => ({ name });
const grown = (name) => ({ name, show: signed });
const share = (name) => ({ name, show: (value) => `${(100 * value).toFixed(1)} %` });
