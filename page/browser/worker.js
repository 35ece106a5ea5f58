// What a worker does beside the page: one run of the program, or the study of a log or of two, which asks the page for runs.
"use strict";

function runReport({ program, words, log, name, input }) {
  const done = runProgram(program, words, { [name]: new LentFile(log) }, input ? new LentFile(input) : null);
  postMessage({ done: { status: done.status, out: done.out, errors: done.errors } }, [done.out.buffer, done.errors.buffer]);
}

const asked = [];

// Asks the page for a report of a log, or of so many first bytes of it.
function askFor(which, words, first) {
  postMessage({ ask: asked.length, which, words, first });
  return new Promise((resolve, reject) => asked.push({ resolve, reject }));
}

function answer({ answer: number, out, refused }) {
  if (refused) asked[number].reject(new Error(refused));
  else asked[number].resolve(out);
}

// Studies a log. Of two what broke off is told with the log's name.
async function read(study, isOneOfTwo) {
  try {
    await study.read();
  } catch (fault) {
    const Kind = fault instanceof RangeError ? RangeError : Error;
    throw isOneOfTwo ? new Kind(`${study.name}: ${fault.message}`) : fault;
  }
}

// Two logs are studied side by side.
async function studyLogs({ logs, documents }) {
  const parts = logs.map(() => 0);
  const studies = logs.map(({ log, name, names, reachable }, which) => new Study(new LentFile(log), shown(bytesOf(name)),
    (words, first) => askFor(which, words, first), names, (part) => {
      parts[which] = part;
      postMessage({ part: parts.reduce((sum, own) => sum + own) / parts.length });
    }, reachable && new LentFile(reachable)));
  await Promise.all(studies.map((study) => read(study, studies.length > 1)));
  postMessage({ page: studies.length === 1 ? pageOf(documents, ...studies) : comparisonOf(documents, ...studies) });
}

// Tells what broke off. A RangeError is of memory, but for that of a stack.
function fail(fault) {
  const isMemory = fault instanceof RangeError && !fault.message.includes("stack");
  postMessage({ fault: isMemory ? `the browser gave no more memory (${fault.message})` : fault.message || String(fault) });
}

onmessage = ({ data }) => {
  if (data.answer !== undefined) return answer(data);
  if (data.documents) return studyLogs(data).catch(fail);
  try {
    return runReport(data);
  } catch (fault) {
    return fail(fault);
  }
};
