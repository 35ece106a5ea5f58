// Numbers of a page, and of what makes one. JavaScript counts up to 2^53: a greater number is a
// BigInt, and text in JSON.
"use strict";

const told = (number) => number.toLocaleString("en-US");
const counted = (number, one, many = `${one}s`) => `${told(number)} ${number === 1 ? one : many}`;

// The number that is told by digits, or by a BigInt.
function numberOf(digits) {
  const number = Number(digits);
  return Number.isSafeInteger(number) ? number : BigInt(digits);
}

function plus(one, other) {
  const sum = typeof one === "number" && typeof other === "number" ? one + other : NaN;
  return Number.isSafeInteger(sum) ? sum : numberOf(BigInt(one) + BigInt(other));
}

const minus = (one, other) => plus(one, -other);
const sumOf = (numbers) => numbers.reduce(plus, 0);
const mostOf = (numbers) => numbers.reduce((one, other) => other > one ? other : one);
const leastOf = (numbers) => numbers.reduce((one, other) => other < one ? other : one);
const shareOf = (part, whole) => Number(part) / (Number(whole) || 1);

// The order of numbers, and of what has a number: the greatest first.
const falling = (one, other) => one < other ? 1 : one > other ? -1 : 0;
const fallingBy = (number) => (one, other) => falling(number(one), number(other));

// Numbers of JSON, in lists.
function exact(value) {
  if (Array.isArray(value)) return value.map(exact);
  return typeof value === "string" ? numberOf(value) : value;
}
