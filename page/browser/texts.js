// Bytes of a log are kept as text in which each letter is a byte. This is how they are shown: all of them, and so that they can do
// nothing, as names/texts.py has it.
"use strict";

const NO_LOCATION = "(no location)";

// The text of bytes, a letter each.
function byteText(bytes, from, to) {
  let text = "";
  for (let at = from; at < to; at += 8192) text += String.fromCharCode.apply(null, bytes.subarray(at, Math.min(to, at + 8192)));
  return text;
}

// How many bytes the letter of UTF-8 has that begins at a place, and its number; or one byte, and -1, where none does.
function letterAt(bytes, at) {
  const first = bytes.charCodeAt(at);
  const count = first < 0x80 ? 1 : first >= 0xc2 && first < 0xe0 ? 2 : first >= 0xe0 && first < 0xf0 ? 3 : first >= 0xf0 && first < 0xf5 ? 4 : 0;
  let number = count < 2 ? first : first & (0x7f >> count);
  for (let next = 1; next < count; next++) {
    const byte = bytes.charCodeAt(at + next);
    if ((byte & 0xc0) !== 0x80) return [1, -1];
    number = number << 6 | byte & 0x3f;
  }
  const least = [0, 0, 0x80, 0x800, 0x10000][count];
  const isLetter = count > 0 && number >= least && number <= 0x10ffff && (number < 0xd800 || number > 0xdfff);
  return isLetter ? [count, number] : [1, -1];
}

const knownTexts = new Map();

// Bytes as text, from which they can be told: a byte that isn't UTF-8 is \xNN, a character that nobody sees \u{N}, and a backslash
// stands twice.
function shown(bytes) {
  let text = knownTexts.get(bytes);
  if (text === undefined) {
    text = /^[\x20-\x5b\x5d-\x7e]*$/.test(bytes) ? bytes : shownAnew(bytes);
    knownTexts.set(bytes, text);
  }
  return text;
}

function shownAnew(bytes) {
  let text = "";
  for (let at = 0; at < bytes.length;) {
    const [count, number] = letterAt(bytes, at), letter = number < 0 ? "" : String.fromCodePoint(number);
    if (number < 0) text += `\\x${bytes.charCodeAt(at).toString(16).padStart(2, "0")}`;
    else if (letter === "\\") text += "\\\\";
    else if (letter !== " " && /[\p{C}\p{Z}]/u.test(letter)) text += `\\u{${number.toString(16)}}`;
    else text += letter;
    at += count;
  }
  return text;
}

// A location as it is shown.
function siteName(location) {
  return location ? shown(location) : NO_LOCATION;
}
