// ---- the tree of calls

const DIRECTIONS = { down: "who calls, top down", up: "who is called, bottom up" };
const FIRST_NODES = 20, MOST_FOUND = 300;

// A node of the tree: a function, and the rows whose stacks go through it, each with its frames. Its children are looked for when it is
// opened.
class TreeNode {
  constructor(name, parent, depth) {
    this.name = name;
    this.parent = parent;
    this.depth = depth;
    this.items = [];
    this.sums = PLACES.map(() => 0);
  }

  take(item) {
    this.items.push(item);
    PLACES.forEach((place, at) => { this.sums[at] = plus(this.sums[at], item.totals[place]); });
  }

  get children() {
    if (!this.found) {
      const nodes = new Map();
      for (const item of this.items) {
        const name = item.frames[this.depth];
        if (name === undefined) continue;
        if (!nodes.has(name)) nodes.set(name, new TreeNode(name, this, this.depth + 1));
        nodes.get(name).take(item);
      }
      this.found = [...nodes.values()];
    }
    return this.found;
  }
}

// All sites as a tree: from the outermost frame down, or from the nearest up.
function treeOf(direction, wanted = "") {
  const root = new TreeNode("all sites", null, 0);
  totalRows.forEach((row, at) => {
    const frames = framesInTree(row);
    const full = row.site < 0 ? frames : [...frames, ...framesOf(row.site)];
    if (wanted && !full.some((frame) => frame.toLowerCase().includes(wanted))) return;
    root.take({ frames: direction === "down" ? frames.reverse() : frames, totals: data.totals[at] });
  });
  return root;
}

class Tree {
  constructor(home) {
    this.direction = "down";
    this.sorted = 0;
    this.search = make("input", { type: "search", placeholder: "Search for a function", "aria-label": "Search the tree for a function" });
    this.body = make("tbody");
    this.heads = MEASURES.map((name, at) => this.head(name, at));
    this.note = make("output");
    const table = make("table", { role: "treegrid", "aria-label": "The tree of calls" },
      make("thead", {}, make("tr", {}, make("th", { scope: "col", class: "text" }, "Function"), ...this.heads)), this.body);
    const hint = "Click a function, or press Enter, to open it. Arrows move: right opens, left closes.";
    home.append(make("p", { class: "hint" }, hint),
      make("div", { class: "tools" }, chooser("Tree:", DIRECTIONS, (direction) => { this.direction = direction; this.begin(); }), this.search),
      make("div", { class: "scroll" }, table), this.note);
    this.search.addEventListener("input", () => this.begin());
    table.addEventListener("keydown", (event) => this.key(event));
    this.begin();
  }

  head(name, at) {
    const button = make("button", { type: "button" }, name);
    button.addEventListener("click", () => { this.sorted = at; this.show(); });
    return make("th", { scope: "col", class: "number" }, button);
  }

  begin() {
    const wanted = this.search.value.trim().toLowerCase();
    this.root = treeOf(this.direction, wanted);
    this.root.open = true;
    this.at = null;
    if (wanted) this.openTo(this.root, wanted, { left: MOST_FOUND });
    this.show();
  }

  // Opens what leads to functions with these letters.
  openTo(node, wanted, budget) {
    let leads = false;
    for (const child of node.children) {
      if (budget.left-- <= 0) break;
      const inside = this.openTo(child, wanted, budget);
      child.open = inside;
      child.marked = child.name.toLowerCase().includes(wanted);
      leads = leads || inside || child.marked;
    }
    return leads;
  }

  show() {
    this.heads.forEach((head, at) => head.setAttribute("aria-sort", at === this.sorted ? "descending" : "none"));
    this.shown = [];
    this.spread(this.root);
    this.body.replaceChildren(...this.shown.map((place) => place.line));
    const first = this.shown.find((place) => place.node === this.at) || this.shown[0];
    if (first) first.line.setAttribute("tabindex", 0);
    this.note.textContent = this.shown.length ? "" : "No function.";
  }

  spread(node) {
    const inOrder = [...node.children].sort(fallingBy(({ sums }) => sums[this.sorted]));
    const most = node.most || FIRST_NODES;
    for (const child of inOrder.slice(0, most)) {
      this.shown.push({ node: child, line: this.line(child) });
      if (child.open) this.spread(child);
    }
    if (inOrder.length > most) this.shown.push({ node: null, line: this.more(node, inOrder.length - most) });
  }

  more(node, count) {
    const button = make("button", { type: "button" }, `${counted(count, "more function")}`);
    button.addEventListener("click", () => { node.most = (node.most || FIRST_NODES) + 200; this.show(); });
    const inside = nodeElement(node.depth + 1, "", button);
    return make("tr", {}, make("td", { class: "text", colspan: 5 }, inside));
  }

  line(node) {
    const opens = node.children.length > 0;
    const sign = opens ? (node.open ? "▾" : "▸") : "";
    const cell = make("td", { class: node.marked ? "text marked" : "text" },
      nodeElement(node.depth, sign, isolated(node.name)));
    const line = make("tr", { tabindex: -1, "aria-level": node.depth }, cell,
      ...node.sums.map((value) => make("td", { class: "number" }, told(value))));
    if (opens) line.setAttribute("aria-expanded", String(Boolean(node.open)));
    line.addEventListener("click", () => this.turn(node, !node.open));
    return line;
  }

  // Opens or closes a node; one with a single child opens that, too.
  turn(node, open) {
    node.open = open;
    for (let only = node; open && only.children.length === 1; only = only.children[0]) only.open = true;
    this.at = node;
    this.show();
    this.focus(node);
  }

  focus(node) {
    const place = this.shown.find((place) => place.node === node);
    if (!place) return;
    this.shown.forEach((other) => other.line.setAttribute("tabindex", other === place ? 0 : -1));
    this.at = node;
    place.line.focus();
  }

  key(event) {
    const at = this.shown.findIndex((place) => place.line === document.activeElement);
    if (at < 0 || !this.shown[at].node) return;
    const node = this.shown[at].node, step = (by) => () => this.shown[at + by]?.node && this.focus(this.shown[at + by].node);
    const action = {
      ArrowDown: step(1), ArrowUp: step(-1), Enter: () => this.turn(node, !node.open),
      ArrowRight: () => node.open ? step(1)() : node.children.length && this.turn(node, true),
      ArrowLeft: () => node.open ? this.turn(node, false) : node.parent.parent && this.focus(node.parent),
      Home: () => this.focus(this.shown[0].node),
    }[event.key];
    if (!action) return;
    event.preventDefault();
    action();
  }
}

// What a line of the tree begins with: how far in, the style of `node` tells.
function nodeElement(depth, sign, inside) {
  return make("div", { class: "node", style: `--depth: ${depth - 1}` },
    make("span", { class: "sign", "aria-hidden": "true" }, sign), inside);
}
