// ---- the flame graph

const FLAME_ROW = 18;

class Flame {
  constructor(home) {
    this.home = home;
    this.measure = 0;
    this.root = treeOf("down");
    this.svg = draw("svg", { class: "flame", role: "group", "aria-label": "Flame graph" });
    this.told = make("p", { class: "told", "aria-live": "polite" });
    const hint = "The outermost function is at the top. Click one, or press Enter, to see it alone; Escape shows all. Arrows move.";
    home.append(make("p", { class: "hint" }, hint), chooser("By", Object.fromEntries(MEASURES.entries()), (measure) => {
      this.measure = Number(measure);
      this.zoom(this.root);
    }), this.svg, this.told);
    this.svg.addEventListener("keydown", (event) => this.key(event));
    window.addEventListener("resize", () => { if (this.width !== widthOf(home)) this.zoom(this.from); });
    this.zoom(this.root);
  }

  value(node) {
    return node.sums[this.measure];
  }

  zoom(node) {
    this.from = node;
    this.shown = [];
    this.depth = 0;
    this.width = widthOf(this.home);
    const above = [];
    for (let up = node.parent; up; up = up.parent) above.unshift(up);
    above.forEach((up) => this.place(up, 0, this.width));
    this.spread(node, 0, this.width);
    const height = (this.depth + 1) * FLAME_ROW;
    this.svg.setAttribute("viewBox", `0 0 ${this.width} ${height}`);
    this.svg.replaceChildren(...this.shown.map((place) => place.group));
    this.shown.find((place) => place.node === node).group.setAttribute("tabindex", 0);
    this.told.textContent = this.value(this.root) ? "" : `${MEASURES[this.measure]}: none.`;
  }

  spread(node, x, width) {
    if (width < 1) return;
    this.place(node, x, width);
    let at = x;
    for (const child of [...node.children].sort(fallingBy((each) => this.value(each)))) {
      const part = width * shareOf(this.value(child), this.value(node));
      this.spread(child, at, part);
      at += part;
    }
  }

  place(node, x, width) {
    this.depth = Math.max(this.depth, node.depth);
    const y = node.depth * FLAME_ROW, part = 100 * shareOf(this.value(node), this.value(this.root));
    const unit = ["byte", "byte", "call", "temporary block"][this.measure];
    const words = `${node.name}: ${counted(this.value(node), unit)}, ${part.toFixed(1)} %`;
    const letters = Math.floor((width - 6) / 7);
    const group = draw("g", { tabindex: -1, role: "img", "aria-label": words }, draw("title", {}, words),
      draw("rect", { x, y, width, height: FLAME_ROW - 1, fill: `hsl(${hueOf(node.name)} 60% 72%)` }));
    const name = node.name.length > letters ? node.name.slice(0, letters - 1) + "…" : node.name;
    if (letters > 2) group.append(draw("text", { x: x + 3, y: y + 13 }, name));
    group.addEventListener("click", () => { this.zoom(node); this.focus(node); });
    group.addEventListener("pointerenter", () => { this.told.textContent = words; });
    group.addEventListener("focus", () => { this.told.textContent = words; });
    this.shown.push({ node, group });
  }

  focus(node) {
    const place = this.shown.find((place) => place.node === node);
    if (place) place.group.focus();
  }

  key(event) {
    const at = this.shown.findIndex((place) => place.group === document.activeElement);
    if (at < 0) return;
    const node = this.shown[at].node, level = this.shown.filter((place) => place.node.depth === node.depth);
    const beside = level.findIndex((place) => place.node === node);
    const target = {
      ArrowUp: () => node.parent, Enter: () => node, Escape: () => this.root,
      ArrowDown: () => this.shown.find((place) => place.node.parent === node)?.node,
      ArrowLeft: () => level[beside - 1]?.node, ArrowRight: () => level[beside + 1]?.node,
    }[event.key];
    if (!target) return;
    event.preventDefault();
    if (event.key === "Enter" || event.key === "Escape") this.zoom(target());
    if (target()) this.focus(target());
  }
}

function hueOf(name) {
  let hash = 7;
  for (const letter of name) hash = (hash * 31 + letter.codePointAt(0)) % 3600;
  return hash % 60 + 10 + (hash % 7 === 0 ? 150 : 0);
}
