// Fills the documents of a page, as page/template.py and document.py do.
"use strict";

// JSON that nothing in it can end.
function jsonText(data) {
  const escapes = { "<": "\\u003c", ">": "\\u003e", "&": "\\u0026", "\u2028": "\\u2028" };
  const toldAs = (_, value) => typeof value === "bigint" ? String(value) : value;
  return JSON.stringify(data, toldAs).replace(/[<>&\u2028]/g, (letter) => escapes[letter]);
}

function escaped(text) {
  const escapes = { "&": "&amp;", "<": "&lt;", ">": "&gt;", '"': "&quot;", "'": "&#x27;" };
  return text.replace(/[&<>"']/g, (letter) => escapes[letter]);
}

// A document with its parts and those that all share, each put once: what looks like a name within one stays.
function pageText(documents, name, title, data, more) {
  const parts = { ...documents.shared, title: escaped(title), data: jsonText(data), ...more };
  return documents[name].replace(/\{\{(\w+)\}\}/g, (whole, part) => parts[part]);
}

// The page of one log.
function pageOf(documents, log) {
  return pageText(documents, "page", `${log.name}: who holds its memory`, log.pageData(), {});
}
