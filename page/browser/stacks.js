// The stacks of a log, as docs/FORMATS.md has them: the modules and stacks that it tells once, and its age.
"use strict";

const PART = /^([ms])([0-9]+)([=+])([\x21-\x7e\x80-\xff]*)$/, AGE = /^t([0-9]{1,15})$/;
// A location whose stack has more calls than it tells.
const CUT = /(?:^|<)\?:(?:\[0x[0-9a-f]+\]<)*\[0x0\]$/;
const FRAME_TEXT = /^(?:([^]+):)?\[(0x[0-9a-f]+)\]$/;

class Stacks {
  constructor() {
    this.ages = [];
    this.modules = new Map();
    this.lists = new Map();
    this.known = new Map();
    this.begun = null;
    // The lists that the stack before ends in, by the number of their frames.
    this.ends = [null];
  }

  // Takes the location of a line without effect, and the line's number.
  take(location, line) {
    const part = PART.exec(location), age = AGE.exec(location);
    if (age) this.ages.push([line, Number(age[1])]);
    if (!part) return;
    const [, letter, digits, sign, text] = part, name = letter + Number(digits);
    if (sign === "=") {
      this.end();
      this.begun = { letter, name, text };
    } else if (this.begun && this.begun.name === name) this.begun.text += text;
  }

  // Keeps the module or stack that is whole now.
  end() {
    if (!this.begun) return;
    const { letter, name, text } = this.begun;
    if (letter === "m") this.modules.set(name.slice(1), text);
    else this.lists.set(name, this.listOf(text));
    this.begun = null;
  }

  // The list of a stack's text: a frame, and the list of those that called it. Frames from the first on that isn't whole are left out.
  listOf(text) {
    const own = [];
    let ends = this.ends.slice(0, 1), module = "?";
    for (const part of text.split("<")) {
      const frame = this.frame(module, part);
      if (!frame) {
        const shared = /^s[0-9]+\.([0-9]+)$/.exec(part);
        if (shared) ends = this.ends.slice(0, Number(shared[1]) + 1);
        break;
      }
      module = frame.module;
      own.push(frame);
    }
    for (const frame of own.reverse()) ends.push({ frame, rest: ends[ends.length - 1] });
    this.ends = ends;
    return ends[ends.length - 1];
  }

  // The frame that a part of a text is, behind one of a module; or nothing.
  frame(module, part) {
    const key = `${module}\n${part}`;
    if (!this.known.has(key)) {
      const found = /^(?:([0-9]+):)?([0-9a-f]+)$/.exec(part);
      const of = found && found[1] ? this.modules.get(found[1]) ?? "?" : module;
      if (!found) return null;
      this.known.set(key, { module: of, offset: found[2].replace(/^0+(?=.)/, "") });
    }
    return this.known.get(key);
  }

  // Whether a location's stack has more calls, for which its last frame stands.
  isCut(location) {
    let last = null;
    for (let list = this.lists.get(location); list; list = list.rest) last = list.frame;
    return last ? last.module === "?" && last.offset === "0" : CUT.test(location);
  }

  // A location with its frames for a stack's number; else as it is.
  whole(location) {
    let text = "", before = null;
    for (let list = this.lists.get(location); list; list = list.rest) {
      const { module, offset } = list.frame;
      text += `${before === null ? "" : "<"}${module === before ? "" : `${module}:`}[0x${offset}]`;
      before = module;
    }
    return text || location;
  }
}

// A location as it stands, where it has no names: of a stack its frames, each with the module's name.
function plainSite(location) {
  const modules = [];
  let frames = [], module = "";
  for (const part of location.split("<")) {
    const found = FRAME_TEXT.exec(part);
    if (!found || !(found[1] || module)) {
      frames = [];
      break;
    }
    module = found[1] || module;
    modules.push(module.slice(module.lastIndexOf("/") + 1));
    frames.push(module === "?" && found[2] === "0x0" ? "(more calls)" : `${modules[modules.length - 1]}[${found[2]}]`);
  }
  if (frames.length < 2) frames = [location];
  const told = frames.map(siteName), of = modules.length ? shown(modules[0]) : shown(location.split(":", 1)[0]) || NO_LOCATION;
  return { name: told[0], short: told[0], file: "", module: of, line: 0, frames: told, briefs: told };
}
