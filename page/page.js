"use strict";

const SVG = "http://www.w3.org/2000/svg";

window.onerror = (message) => {
  const failure = document.getElementById("failure");
  failure.hidden = false;
  failure.textContent = `This page failed: ${message}`;
};

const data = JSON.parse(document.getElementById("data").textContent);
// Where numbers stand that may be greater than JavaScript counts.
["points", "totals", "changes", "sizes", "leaks", "lost"].forEach((part) => {
  data[part] = exact(data[part]);
});
const find = (id) => document.getElementById(id);
const percent = (part, whole) => `${(100 * shareOf(part, whole)).toFixed(0)} %`;
const signed = (number) => (number > 0 ? "+" : "") + told(number);

// An element with attributes, and text or children in it. Text is never read as HTML.
function make(name, attributes = {}, ...inside) {
  return fill(document.createElement(name), attributes, inside);
}

function draw(name, attributes = {}, ...inside) {
  return fill(document.createElementNS(SVG, name), attributes, inside);
}

function fill(element, attributes, inside) {
  for (const [key, value] of Object.entries(attributes)) element.setAttribute(key, value);
  element.append(...inside);
  return element;
}

// A name by itself, whatever its script's direction, which may break behind `::` and `/`.
function isolated(name) {
  return make("bdi", {}, ...name.split(/(?<=::|\/)/).flatMap((part, at) => at ? [make("wbr"), part] : [part]));
}

// A choice among words, each with what it is called.
function chooser(label, words, changed) {
  const select = make("select", {}, ...Object.entries(words).map(([value, name]) => make("option", { value }, name)));
  select.addEventListener("change", () => changed(select.value));
  return make("label", {}, `${label} `, select);
}

// How wide a drawing may be, in CSS pixels.
function widthOf(home) {
  return Math.max(home.clientWidth, 280);
}
