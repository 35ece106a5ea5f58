// The page that opens a log: it lends the log to workers, and shows the page that they make of it, or a report.
"use strict";

const find = (id) => document.getElementById(id);
const textOf = (id) => find(id).textContent;
const told = (number) => number.toLocaleString("en-US");
// So many letters of a report are shown. All of it can be saved.
const MOST_SHOWN = 1_000_000;
const lanes = Math.max(1, Math.min(4, (navigator.hardwareConcurrency || 2) - 1));

const program = WebAssembly.compile(Uint8Array.from(atob(textOf("program")), (letter) => letter.charCodeAt(0)));
const documents = JSON.parse(textOf("documents"));
const workerAddress = URL.createObjectURL(new Blob([textOf("worker")], { type: "text/javascript" }));
const decoder = new TextDecoder();

// A name that begins with a dash is no option.
const pathOf = (log) => log.name.startsWith("-") ? `./${log.name}` : log.name;

// The workers of one run over these logs, at most so many at once, which can be stopped together.
class Work {
  constructor(logs) {
    this.logs = logs;
    this.workers = new Set();
    this.waiting = [];
    this.running = 0;
    this.stopped = false;
  }

  worker(message, fault) {
    const worker = new Worker(workerAddress);
    worker.onmessage = message;
    worker.onerror = (event) => fault(event.message || "a worker doesn't start");
    this.workers.add(worker);
    return worker;
  }

  end(worker) {
    worker.terminate();
    this.workers.delete(worker);
  }

  stop() {
    this.stopped = true;
    this.workers.forEach((worker) => this.end(worker));
  }

  // One report, of the last log where none is named: its status, and both texts.
  report(words, first, log = this.logs[this.logs.length - 1].log) {
    return new Promise((resolve, reject) => {
      this.waiting.push({ words, first, log, resolve, reject });
      this.next();
    });
  }

  // Begins the run that waits longest, where there is room.
  async next() {
    if (this.running >= lanes || !this.waiting.length) return;
    this.running++;
    const { words, first, log, resolve, reject } = this.waiting.shift(), compiled = await program.catch(reject);
    if (this.stopped || !compiled) return;
    const end = (worker) => {
      this.end(worker);
      this.running--;
      this.next();
    };
    const worker = this.worker(({ data }) => {
      end(worker);
      if (data.fault) reject(new Error(data.fault));
      else resolve(data.done);
    }, (fault) => reject(new Error(fault)));
    const input = first === undefined ? null : log.slice(0, first), path = pathOf(log);
    worker.postMessage({ program: compiled, words: [...words, input ? "-" : path], log, name: path, input });
  }

  // The text of the page of these logs.
  page(progress) {
    return new Promise((resolve, reject) => {
      const worker = this.worker(({ data }) => {
        if (data.part !== undefined) progress(data.part);
        else if (data.words) this.serve(worker, data, reject);
        else if (data.fault) reject(new Error(data.fault));
        else resolve(data.page);
      }, (fault) => reject(new Error(fault)));
      worker.postMessage({ logs: this.logs.map(({ log, names, reachable }) => ({ log, name: log.name, names, reachable })), documents });
    });
  }

  // Answers the study with a report. What isn't answered with one ends the study, and its own words are shown.
  async serve(worker, { ask, which, words, first }, reject) {
    const { log } = this.logs[which], of = this.logs.length > 1 ? ` of ${log.name}` : "";
    try {
      const { status, out, errors } = await this.report(words, first, log);
      const why = status === 4 ? ", since the browser gave no more memory" : "";
      if (status > 1) throw new Error(`\`tlsf ${words[0]}\`${of} ended with status ${status}${why}: ${decoder.decode(errors).trim()}`);
      worker.postMessage({ answer: ask, out }, [out.buffer]);
    } catch (fault) {
      reject(fault);
    }
  }
}

// ---- what is shown

// What is chosen: a log, or the old and the new one, each with its names and with what is reachable, where these are known.
let work = null, chosen = [], begun = 0;
const report = { words: [], status: null, out: null, errors: null };

function say(state, errors = "") {
  find("state").textContent = state;
  find("errors").textContent = errors;
  find("errors").hidden = !errors;
}

function begin(state) {
  if (work) work.stop();
  work = new Work(chosen);
  begun = performance.now();
  find("stop").disabled = false;
  say(state);
  return work;
}

// Ends what goes on; what another run has taken the place of says nothing.
function ended(own, state, errors) {
  if (own !== work) return;
  own.stop();
  work = null;
  find("stop").disabled = true;
  say(state, errors);
}

const seconds = () => `${((performance.now() - begun) / 1000).toFixed(1)} s`;

// Lets the reader keep what was made.
function lend(link, parts, name, type) {
  if (link.href) URL.revokeObjectURL(link.href);
  link.href = URL.createObjectURL(new Blob(parts, { type }));
  link.download = name;
  link.hidden = false;
}

// Whether zeros stand behind a log's lines, as they do while bin/trace writes it.
async function endsInZeros(file) {
  const end = new Uint8Array(await file.slice(-2).arrayBuffer());
  return end.length === 2 && !end[0] && !end[1];
}

// What packed a file, by its first bytes, or nothing.
async function packedBy(file) {
  const head = String.fromCharCode(...new Uint8Array(await file.slice(0, 6).arrayBuffer()));
  const found = Object.entries({ "\x1f\x8b": "gzip", "\xfd7zXZ\0": "xz", "\x28\xb5\x2f\xfd": "zstd", BZh: "bzip2", "PK\x03\x04": "zip" })
    .find(([sign]) => head.startsWith(sign));
  return found && found[1];
}

// Refuses a log that is packed, or still written.
async function expectEnded({ log }) {
  const packed = await packedBy(log);
  if (packed) throw new Error(`${log.name} is packed by ${packed}: unpack it first`);
  if (await endsInZeros(log)) throw new Error(`${log.name} is still written: end its program, or copy its lines by tlsf-trace --copy`);
}

// What is chosen, as it is told.
function toldLogs(which) {
  const [one, other] = chosen.map(({ log }) => log.name);
  return other === undefined ? one : `${one}${which ? " (old)" : ""} and ${other}${which ? " (new)" : ""}`;
}

function showChosen() {
  find("compare").hidden = !chosen.length;
  find("swap").hidden = chosen.length < 2;
}

async function showPage() {
  if (!chosen.length) return say("Choose a log first.");
  const reads = `${toldLogs(false)} ${chosen.length > 1 ? "are" : "is"} read`;
  const own = begin(`${reads}.`), frame = find("page"), name = toldLogs(true), { logs } = own;
  showChosen();
  frame.hidden = find("save").hidden = true;
  frame.srcdoc = find("out").textContent = "";
  try {
    await Promise.all(logs.map(expectEnded));
    const page = await own.page((part) => { if (own === work) say(`${reads}: ${Math.floor(100 * part)} %`); });
    if (own !== work) return undefined;
    frame.srcdoc = page;
    frame.hidden = false;
    document.body.classList.add("shown");
    lend(find("save"), [page], `${logs.map(({ log }) => log.name).join("-")}.html`, "text/html");
    return ended(own, `${name}: ${logs.map(({ log }) => told(log.size)).join(" and ")} bytes, ${seconds()}.`);
  } catch (fault) {
    return ended(own, `There is no page of ${toldLogs(false)}.`, fault.message);
  }
}

async function showReport() {
  if (!chosen.length) return say("Choose a log first.");
  const words = [find("command").value, ...find("options").value.split(/\s+/).filter(Boolean)], { log } = chosen[chosen.length - 1];
  const own = begin(`tlsf ${words[0]} reads ${log.name}.`);
  find("out").textContent = "";
  try {
    const { status, out, errors } = await own.report(words);
    if (own !== work) return undefined;
    Object.assign(report, { words, status, out, errors });
    find("out").textContent = decoder.decode(out.subarray(0, MOST_SHOWN)) + (out.length > MOST_SHOWN ? "\n.. save the report for the rest\n" : "");
    lend(find("save-report"), [out], `${log.name}.${words[0]}`, "text/plain");
    const memory = status === 4 ? ": the browser gave no more memory" : "";
    return ended(own, `tlsf ${words.join(" ")} ${log.name}: status ${status}${memory}, ${seconds()}.`, decoder.decode(errors));
  } catch (fault) {
    return ended(own, `tlsf ${words[0]} broke off.`, fault.message);
  }
}

// ---- what is chosen

// Names are JSON, with which no log begins.
async function isNames(file) {
  return decoder.decode(await file.slice(0, 9).arrayBuffer()) === '{"sites":';
}

// What is reachable begins with what is lost, with which no log does.
async function isReachable(file) {
  return /^Lost: \d/.test(decoder.decode(await file.slice(0, 7).arrayBuffer()));
}

// The log that a file with more of it belongs to: the one that is chosen, of two that which it is called by.
function logOf(file, ending, what) {
  const named = chosen.length > 1 ? chosen.filter(({ log }) => file.name === `${log.name}${ending}`) : chosen;
  if (named.length !== 1) throw new Error(`It isn't known whose ${what} ${file.name} has: of two logs they are called LOG${ending}.`);
  return named[0];
}

async function takeNames(file) {
  logOf(file, ".names", "names").names = JSON.parse(await file.text()).sites;
}

// Takes files that tell more of the logs that are chosen.
async function takeMore(names, reachable) {
  for (const file of names) await takeNames(file);
  for (const file of reachable) logOf(file, ".reachable", "reachable blocks").reachable = file;
}

// Takes one log or two, of which that is the old one that was written first, names, and what is reachable. `more` is the log that stays
// beside them.
async function take(files, more = []) {
  if (!files.length) return undefined;
  const [areNames, areReachable] = await Promise.all([isNames, isReachable].map((is) => Promise.all(files.map(is))));
  const logs = files.filter((file, at) => !areNames[at] && !areReachable[at]);
  const all = [...more, ...logs.map((log) => ({ log, names: null, reachable: null }))];
  if (all.length > 2) return say("Choose one log, or two to compare.");
  if (logs.length) chosen = all.sort((one, other) => one.log.lastModified - other.log.lastModified);
  if (!chosen.length) return say("Choose a log first.");
  try {
    await takeMore(files.filter((file, at) => areNames[at]), files.filter((file, at) => areReachable[at]));
  } catch (fault) {
    return say("These names can't be read.", fault.message);
  }
  return showPage();
}

function swap() {
  chosen = [...chosen].reverse();
  showPage();
}

function dropOn(place) {
  place.addEventListener("dragover", (event) => {
    event.preventDefault();
    document.body.classList.add("over");
  });
  place.addEventListener("dragleave", () => document.body.classList.remove("over"));
  place.addEventListener("drop", (event) => {
    event.preventDefault();
    document.body.classList.remove("over");
    take([...event.dataTransfer.files]);
  });
}

// The same file may be chosen again.
for (const id of ["log", "other"]) {
  find(id).addEventListener("click", () => { find(id).value = ""; });
  find(id).addEventListener("change", () => take([...find(id).files], id === "other" ? chosen.slice(-1) : []));
}
find("swap").addEventListener("click", swap);
find("form").addEventListener("submit", (event) => {
  event.preventDefault();
  showReport();
});
find("stop").addEventListener("click", () => { if (work) ended(work, "Stopped."); });
find("page").addEventListener("load", () => dropOn(find("page").contentWindow));
dropOn(window);
