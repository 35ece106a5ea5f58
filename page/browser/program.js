// Runs the proved program that is compiled to WebAssembly: its words and files go in, and what it writes comes out.
"use strict";

// The program's memory, in pages of 65,536 bytes: what it begins with, as it is linked, and the most that it may ask for.
const FIRST_PAGES = 256, MOST_PAGES = 65535;
// Faults with their numbers and texts in C, and the flag of `open` that makes a file.
const FAULTS = { ENOENT: [2, "No such file or directory"], EBADF: [9, "Bad file descriptor"], EINVAL: [22, "Invalid argument"],
  ENOSYS: [38, "Function not implemented"] };
const MAKES = 0o100;
// What a page's files have no use for: these calls are refused.
const REFUSED_CALLS = ["fchown", "unlink", "ftruncate", "fchmod", "fsync", "fdatasync", "flock", "rename"];
const WINDOW = 4 << 20;

// A file that the browser lends, read piece by piece, since it may be larger than what a page can hold.
class LentFile {
  constructor(blob) {
    this.blob = blob;
    this.size = blob.size;
    this.from = 0;
    this.window = new Uint8Array(0);
  }

  // At most so many bytes from a place on; none at the end.
  read(from, room) {
    const at = from - this.from;
    if (at >= 0 && at < this.window.length) return this.window.subarray(at, at + room);
    this.from = from;
    this.window = this.piece(from, WINDOW);
    return this.window.subarray(0, room);
  }

  // So many bytes from a place on, or all that there are.
  piece(from, room) {
    return new Uint8Array(new FileReaderSync().readAsArrayBuffer(this.blob.slice(from, from + room)));
  }
}

function joined(parts) {
  const all = new Uint8Array(parts.reduce((sum, part) => sum + part.length, 0));
  let end = 0;
  for (const part of parts) {
    all.set(part, end);
    end += part.length;
  }
  return all;
}

// What the program asks of the system. Descriptors 0, 1 and 2 are the standard streams, of which 0 may be lent.
class System {
  constructor(words, files, input) {
    const encoder = new TextEncoder();
    this.words = ["tlsf", ...words].map((word) => encoder.encode(word));
    this.files = files;
    this.made = {};
    this.written = [[], []];
    this.opened = [input ? { file: input, next: 0 } : null, { parts: this.written[0] }, { parts: this.written[1] }];
    this.fault = 0;
    this.memory = new WebAssembly.Memory({ initial: FIRST_PAGES, maximum: MOST_PAGES });
  }

  bytes(place, count) {
    return new Uint8Array(this.memory.buffer, Number(place) >>> 0, Number(count));
  }

  text(place) {
    const all = new Uint8Array(this.memory.buffer, Number(place) >>> 0);
    return new TextDecoder().decode(all.subarray(0, all.indexOf(0)));
  }

  refuse(name) {
    [this.fault] = FAULTS[name];
    return -1;
  }

  // The text of a fault.
  tellFault(number, place, room) {
    const [, words] = Object.values(FAULTS).find(([fault]) => fault === number) || [number, `Error ${number}`];
    const text = new TextEncoder().encode(words).subarray(0, Number(room) - 1);
    this.bytes(place, text.length + 1).set([...text, 0]);
    return 0;
  }

  word(index, place, room) {
    const word = this.words[Number(index)];
    if (!word) return -1n;
    if (BigInt(word.length) > room) return -2n;
    this.bytes(place, word.length).set(word);
    return BigInt(word.length);
  }

  open(place, flags) {
    const name = this.text(place);
    if (flags & MAKES) {
      this.made[name] = [];
      return this.opened.push({ parts: this.made[name] }) - 1;
    }
    if (!Object.hasOwn(this.files, name)) return this.refuse("ENOENT");
    return this.opened.push({ file: this.files[name], next: 0 }) - 1;
  }

  close(number) {
    if (!this.opened[number]) return this.refuse("EBADF");
    this.opened[number] = null;
    return 0;
  }

  read(number, place, room) {
    const from = this.opened[number];
    if (!from || !from.file) return BigInt(number === 0 ? 0 : this.refuse("EBADF"));
    const part = from.file.read(from.next, Number(room));
    this.bytes(place, part.length).set(part);
    from.next += part.length;
    return BigInt(part.length);
  }

  write(number, place, count) {
    const to = this.opened[number];
    if (!to || !to.parts) return BigInt(this.refuse("EBADF"));
    to.parts.push(this.bytes(place, count).slice());
    return count;
  }

  seek(number, offset, from) {
    const opened = this.opened[number];
    if (!opened || !opened.file) return BigInt(this.refuse("EBADF"));
    if (from !== 0 || offset < 0n) return BigInt(this.refuse("EINVAL"));
    opened.next = Number(offset);
    return offset;
  }

  // Random bytes, of which a call asks for at most 256.
  random(place, count) {
    crypto.getRandomValues(this.bytes(place, count));
    return 0;
  }

  // The environment: whatever the program asks for is 1. It asks for TLSF_CAUSES alone, since the page shows the cause of a fault.
  variable(place) {
    this.bytes(place, 1)[0] = "1".charCodeAt(0);
    return 1n;
  }

  time(place) {
    const now = performance.now(), view = new DataView(this.memory.buffer, Number(place) >>> 0, 16);
    view.setBigInt64(0, BigInt(Math.floor(now / 1000)), true);
    view.setBigInt64(8, BigInt(Math.floor(now % 1000 * 1e6)), true);
    return 0;
  }

  // The calls by the names that the program has for them.
  calls() {
    return {
      memory: this.memory,
      rattle_arg: (index, place, room) => this.word(index, place, room),
      rattle_arg_count: () => BigInt(this.words.length),
      rattle_env: (name, place) => this.variable(place),
      rattle_env_at: () => -1n,
      rattle_errno: () => this.fault,
      rattle_set_errno: (fault) => { this.fault = fault; },
      open: (place, flags) => this.open(place, flags),
      close: (number) => this.close(number),
      read: (number, place, room) => this.read(number, place, room),
      write: (number, place, count) => this.write(number, place, count),
      lseek: (number, offset, from) => this.seek(number, offset, from),
      getentropy: (place, count) => this.random(place, count),
      clock_gettime: (clock, place) => this.time(place),
      __xpg_strerror_r: (number, place, room) => this.tellFault(number, place, room),
      ...Object.fromEntries(REFUSED_CALLS.map((name) => [name, () => this.refuse("ENOSYS")])),
      realpath: () => {
        this.refuse("ENOSYS");
        return 0;
      },
      fcntl: () => 0,
      isatty: () => 0,
      statx: () => this.refuse("ENOENT"),
    };
  }
}

// Runs the program, a WebAssembly.Module, on words and files by their names. Answers its status, both streams as bytes, and the files
// that it made.
function runProgram(program, words, files, input = null) {
  const system = new System(words, files, input);
  const instance = new WebAssembly.Instance(program, { env: system.calls() });
  const status = instance.exports.run();
  const [out, errors] = system.written.map(joined);
  return { status, out, errors, memory: system.memory.buffer.byteLength,
    made: Object.fromEntries(Object.entries(system.made).map(([name, parts]) => [name, joined(parts)])) };
}
