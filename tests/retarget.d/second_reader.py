#!/usr/bin/env python3
"""A second reader of what c/retarget made for a processor of 32 bits, by another way: it undoes,
word by word, what such a processor needs, and compares the rest with the module of x86-64; and it
runs the calls that C makes, and the one that asks for memory, on random numbers, with C's types
taken from the headers.

    second_reader.py MODULE REWRITTEN HEADER..

It prints how many instructions of each kind were rewritten, or what is otherwise than it has to be.
Then the status is 1."""
import random
import re
import sys
from pathlib import Path

WORD = re.compile(r'[@%]"[^"]*"|"[^"]*"|[%@!#]?[\w.$-]+|\.\.\.|[^\s\w]')
# What a value takes on x86-64, and with what alignment.
BYTES = {"i1": 1, "i8": 1, "i16": 2, "i32": 4, "i64": 8, "ptr": 8}
MOST = 2 ** 32 - 1
ROUNDS = 200


class Other(Exception):
    """Something isn't as it has to be."""


def words(line):
    return WORD.findall(re.sub(r"(?:^| )\s*;.*", "", line))


def functions(text):
    """Each function by name: the words of its head, and of each line of its body."""
    found = {}
    for head, body in re.findall(r"^(define [^\n]*\{)\n(.*?)^\}", text, re.M | re.S):
        name = re.search(r'@("[^"]*"|[\w.]+)\(', head)[1].strip('"')
        found[name] = (words(head), [words(line) for line in body.split("\n") if words(line)])
    return found


# ---- what is undone

def defined(line):
    return line[0] if len(line) > 1 and line[1] == "=" else None


class Undone:
    """A function's body as it was: what stands for one instruction of x86-64 is put together
    again."""

    def __init__(self, known):
        # The names that the module of x86-64 has, and what other names stand for, until they are
        # used.
        self.known, self.helpers, self.lines, self.kinds = known, {}, [], {}

    def count(self, kind):
        self.kinds[kind] = self.kinds.get(kind, 0) + 1

    def take(self, name):
        """The line of a helper, which nothing else may use."""
        if name not in self.helpers:
            raise Other(f"{name} stands for nothing")
        return self.helpers.pop(name)

    def add(self, line):
        name = defined(line)
        if name and name not in self.known:
            self.helpers[name] = line
            return
        for shape in (self.pair, self.address, self.copy, self.memory):
            line = shape(line)
        if self.helpers:
            raise Other(f"{', '.join(self.helpers)} in front of: {' '.join(line)}")
        self.lines.append(line)

    def pair(self, line):
        """`%n = insertvalue { A , B } %half , B %second , 1`, of two loads: one load of both."""
        if line[2:3] != ["insertvalue"] or line[8] not in self.helpers:
            return line
        first_type, second_type = line[4], line[6]
        half, second = self.take(line[8]), self.take(line[11])
        first, place = self.take(half[11]), self.take(second[6])
        at, align = first[6], first[-1]
        offset = -(-BYTES[first_type] // BYTES[second_type]) * BYTES[second_type]
        wanted = [(half[2:], ["insertvalue", "{", first_type, ",", second_type, "}", "poison", ",",
                              first_type, first[0], ",", "0"]),
                  (line[9:], [",", second_type, second[0], ",", "1"]),
                  (first[2:], ["load", first_type, ",", "ptr", at, ",", "align", align]),
                  (second[2:], ["load", second_type, ",", "ptr", place[0], ",", "align", align]),
                  (place[2:], ["getelementptr", "i8", ",", "ptr", at, ",", "i64", str(offset)])]
        for found, told in wanted:
            if found != told:
                raise Other(f"a pair: {' '.join(found)}, and not {' '.join(told)}")
        self.count("a load of a pair")
        return [*line[:2], "load", "{", first_type, ",", second_type, "}", ",", "ptr", at, ",",
                "align", align]

    def address(self, line):
        """`%n = zext i32 %word to i64`, of an address as a word."""
        if line[2:4] != ["zext", "i32"] or line[4] not in self.helpers:
            return line
        word = self.take(line[4])
        if word[2:4] != ["ptrtoaddr", "ptr"] or word[5:] != ["to", "i32"] or line[5:] != ["to",
                                                                                          "i64"]:
            raise Other(f"an address: {' '.join(word)}, {' '.join(line)}")
        self.count("an address as a number")
        return [*line[:2], "ptrtoaddr", "ptr", word[4], "to", "i64"]

    def copy(self, line):
        """A copy whose length has 32 bits."""
        text = " ".join(line)
        found = re.fullmatch(r"(call void @llvm\.mem\w+(?:\.p0)+)\.i32 (.* , )i32 (\S+) (, i1 "
                             r"false \))", text)
        if not found:
            return line
        length = found[3]
        if length in self.helpers:
            narrowed = self.take(length)
            if narrowed[2:4] != ["trunc", "i64"] or narrowed[5:] != ["to", "i32"]:
                raise Other(f"a length: {' '.join(narrowed)}")
            length = narrowed[4]
        elif not length.isdigit() or int(length) > MOST:
            raise Other(f"a length of 32 bits: {text}")
        self.count("a copy's length")
        return words(f"{found[1]}.i64 {found[2]}i64 {length} {found[4]}")

    def memory(self, line):
        """The call that asks for memory."""
        if "@rattle_alloc.wide" not in line:
            return line
        self.count("a call for memory")
        return ["@rattle_alloc" if word == "@rattle_alloc.wide" else word for word in line]


def same_line(was, now, undone):
    """Whether a line is as it was; room for a pointer may be eight bytes."""
    if was[2:] == ["alloca", "ptr", ",", "align", "8"] and now == [*was[:2], "alloca", "[", "8",
                                                                   "x", "i8", "]", ",", "align",
                                                                   "8"]:
        undone.count("room for a pointer")
        return True
    if now[2:4] == ["call",
                    "i32"] and now[4] == "@leading_zeros" and was[4] == "@llvm.ctlz.i32" and was[:4] == now[
                        :4]:
        undone.count("a count of leading zeros")
        return was[5:8] == now[5:8] and now[8:] == [")"] and was[8:] in ([",", "i1", "true", ")"],
                                                                         [",", "i1", "false", ")"])
    return was == now


def same_body(name, was, now, kinds):
    """The body of a function is as it was, but for what is undone."""
    undone = Undone({defined(line) for line in was} - {None})
    for line in now:
        undone.add(line)
    if undone.helpers:
        raise Other(f"{name}: {', '.join(undone.helpers)} stands at the end")
    for k, (before, line) in enumerate(zip(was, undone.lines)):
        if not same_line(before, line, undone):
            raise Other(f"{name}: {' '.join(line)}, and not {' '.join(before)}")
    if len(was) != len(undone.lines):
        raise Other(f"{name}: {len(undone.lines)} instructions, and not {len(was)}")
    for kind, count in undone.kinds.items():
        kinds[kind] = kinds.get(kind, 0) + count


def same_head(name, was, now):
    """A function's head is as it was. One that C makes by another is internal, and has another
    name."""
    now = [word.replace("wide.", "").replace('"', "") if word.startswith('@"wide.') else word
           for word in now if word != "internal"]
    if now != [word for word in was if word != "internal"]:
        raise Other(f"{name}: {' '.join(now)}, and not {' '.join(was)}")


# ---- the calls that C makes, run

def passed_by_c(headers, name):
    """How C for 32 bits passes what a call takes, by its declaration."""
    found = re.search(rf"\b{name}\(([^;{{]*?)\);", headers)
    if not found:
        raise Other(f"{name}: no header declares it")
    kinds = []
    for parameter in " ".join(found[1].split()).split(","):
        if "*" in parameter:
            kinds.append("ptr")
        elif re.search(r"\btlsf_(?:heap_)?block\b", parameter):
            kinds.append("[ 2 x i32 ]")
        else:
            kinds.append("i64" if re.search(r"\buint64_t\b", parameter) else "i32")
    return kinds


def parameters(head):
    """The types and names that a function takes."""
    inside = " ".join(head[head.index("(") + 1:])
    inside = re.sub(r"sret \( [^)]*\) align \d+ ", "sret ", inside)
    inside = inside[:inside.rindex(")")] if ")" in inside else inside
    return [(part.replace("noundef", "").rsplit(" ", 1)[0].strip(), part.split()[-1])
            for part in inside.strip().split(" , ") if part.strip()]


class Run:
    """A function without branches, run on numbers: what it calls, what it stores, what it
    answers."""

    def __init__(self, lines, values, answers=None, table=()):
        self.values, self.answers, self.called, self.stored, self.table = (dict(values), answers,
                                                                           None, {}, table)
        self.answer = None
        for line in lines:
            self.step(line)

    def value(self, word):
        return int(word) if re.fullmatch(r"-?\d+", word) else self.values[word]

    def step(self, line):
        name, text = defined(line), " ".join(line[2:] if defined(line) else line)
        for pattern, does in ((r"extractvalue .* (\S+) , ([01])",
                               lambda of, k: self.value(of)[int(k)]),
                              (r"zext (?:i1|i8|i32) (\S+) to (?:i32|i64)", self.value),
                              (r"icmp ugt i32 (\S+) , (\d+)",
                               lambda of, than: int(self.value(of) > int(than))),
                              (r"lshr i32 (\S+) , (\S+)",
                               lambda of, by: self.value(of) >> self.value(by)),
                              (r"shl i32 (\S+) , (\d+)",
                               lambda of, by: self.value(of) << int(by) & MOST),
                              (r"sub i32 (\S+) , (\S+)",
                               lambda a, b: self.value(a) - self.value(b) & MOST),
                              (r"getelementptr i8 , ptr @\S+ , i32 (\S+)", self.value),
                              (r"load i8 , ptr (\S+) , align 1",
                               lambda at: self.table[self.value(at)]),
                              (r"trunc i64 (\S+) to i32", lambda of: self.value(of) & MOST),
                              (r"shl i64 (\S+) , (\d+)",
                               lambda of, by: self.value(of) << int(by) & 2 ** 64 - 1),
                              (r"or i64 (\S+) , (\S+)", lambda a, b: self.value(a) | self.value(b)),
                              (r"getelementptr i8 , ptr (\S+) , i32 (\d+)",
                               lambda of, by: self.value(of) + int(by)),
                              (r"alloca \[ 2 x i32 \] , align 4", lambda: 1000),
                              (r"load i32 , ptr (\S+) , align 4",
                               lambda at: self.stored[self.value(at)]),
                              (r"insertvalue \{ i64 , i64 \} (\S+) , i64 (\S+) , ([01])",
                               self.insert), (r"call .*?(@\S+) \( (.*) \)", self.call),
                              (r"store i64 (\S+) , ptr (\S+) , align 8", self.store),
                              (r"ret (?:void|.*? (\S+))", self.end)):
            found = re.fullmatch(pattern, text)
            if found:
                result = does(*found.groups())
                if name:
                    self.values[name] = result
                return
        raise Other(f"it can't be run: {text}")

    def insert(self, into, what, place):
        pair = [None, None] if into == "poison" else list(self.value(into))
        pair[int(place)] = self.value(what)
        return pair

    def call(self, name, inside):
        given = [part.split()[-1] for part in re.sub(r"sret \( [^)]*\) align \d+ ", "",
                                                     inside).split(" , ")]
        if name == "@llvm.umin.i64":
            return min(self.value(given[0]), self.value(given[1]))
        self.called = (name.strip('@"'), [self.value(word) for word in given])
        if "sret" in inside:
            self.stored[self.value(given[0])], self.stored[self.value(given[0]) + 4] = self.answers
        return self.answers

    def store(self, what, at):
        self.stored[self.value(at)] = self.value(what)

    def end(self, what=None):
        self.answer = self.value(what) if what else None


def widened(kind, value):
    return value[0] | value[1] << 32 if kind == "[ 2 x i32 ]" else value


def run_call(name, function, headers, chance):
    """What C passes arrives, and what is answered comes back."""
    head, lines = function
    taken = parameters(head)
    out = taken[0][1] if "sret" in taken[0][0] else None
    taken = taken[1:] if out else taken
    wanted = passed_by_c(headers, name)
    if [kind for kind, _ in taken] != wanted:
        raise Other(f"{name} takes {[kind for kind, _ in taken]}, and C passes {wanted}")
    for _ in range(ROUNDS):
        given = {word: [chance.randrange(2 ** 32), chance.randrange(2 ** 32)] if kind
                 == "[ 2 x i32 ]" else chance.randrange(2 ** (64 if kind == "i64" else 32))
                 for kind, word in taken}
        answers = [chance.randrange(2 ** 64),
                   chance.randrange(2 ** 64)] if out else chance.randrange(2 ** 32)
        ran = Run(lines, {**given, **({out: 64} if out else {})}, answers)
        if ran.called != (f"wide.{name}", [widened(kind, given[word]) for kind, word in taken]):
            raise Other(f"{name} calls {ran.called} for {given}")
        if (ran.stored, ran.answer) != (({64: answers[0], 72: answers[1]}, None) if out
                                        else ({}, answers)):
            raise Other(f"{name} answers {ran.stored or ran.answer}, and not {answers}")


def run_memory(function, chance):
    """More than 32 bits tell is asked for as the most that they tell; what the program answers is
    widened."""
    head, lines = function
    (_, size), (_, align) = parameters(head)
    for _ in range(ROUNDS):
        bytes_, unit = chance.randrange(2 ** chance.choice((20, 32, 33,
                                                            64))), 2 ** chance.randrange(13)
        answers = [chance.randrange(2), chance.randrange(2 ** 32)]
        ran = Run(lines, {size: bytes_, align: unit}, answers)
        name, given = ran.called
        if name != "rattle_alloc" or given[-2:] != [min(bytes_, MOST),
                                                    unit] or ran.answer != answers:
            raise Other(f"memory: {ran.called} for {bytes_} bytes, answered {ran.answer}, and not "
                        f"{answers}")


def run_zeros(function, text, chance):
    """The function that counts leading zeros does so, for words of each length, and for 0."""
    told = re.search(r'^@leading_zeros_of_byte = private unnamed_addr constant \[256 x i8\] '
                     r'c"((?:\\[0-9A-F]{2}){256})", align 1$', text, re.M)
    if not told:
        raise Other("leading zeros: no table of 256 bytes")
    table = bytes.fromhex(told[1].replace("\\", ""))
    head, lines = function
    (_, word), = parameters(head)
    for number in [0, *(chance.randrange(2 ** bits, 2 ** (bits + 1)) for bits in range(32)
                        for _ in range(ROUNDS))]:
        answer = Run(lines, {word: number}, table=table).answer
        if answer != 32 - number.bit_length():
            raise Other(f"leading zeros of {number:#x}: {answer}")


# ---- both modules

def compare(before, after, headers):
    """All functions of both; answers how many of each kind were rewritten."""
    was, now, kinds, chance = functions(before), functions(after), {}, random.Random(1)
    for name, (head, body) in was.items():
        stands = f"wide.{name}" if f"wide.{name}" in now else name
        if stands not in now:
            raise Other(f"{name} is gone")
        same_head(name, head, now[stands][0])
        same_body(name, body, now.pop(stands)[1], kinds)
        if stands != name:
            run_call(name, now.pop(name), headers, chance)
            kinds["a call of C"] = kinds.get("a call of C", 0) + 1
        elif head[1] != "internal":
            for kind, c in zip([kind for kind, _ in parameters(head)], passed_by_c(headers, name)):
                if kind != c:
                    raise Other(f"{name} takes {kind}, and C passes {c}")
    run_memory(now.pop("rattle_alloc.wide"), chance)
    if "leading_zeros" in now:
        run_zeros(now.pop("leading_zeros"), after, chance)
        after = re.sub(r"^@leading_zeros_of_byte = .*\n", "", after, flags=re.M)
    if now:
        raise Other(f"functions that x86-64 hasn't: {', '.join(now)}")
    constants = [re.findall(r"^@.*$", text, re.M) for text in (before, after)]
    if constants[0] != constants[1]:
        raise Other("the constants differ")
    return kinds


def main():
    before, after, *headers = [Path(name).read_text() for name in sys.argv[1:]]
    try:
        kinds = compare(before, after, "\n".join(headers))
    except (Other, IndexError, KeyError) as other:
        sys.exit(f"second_reader: {other}")
    print(", ".join(f"{kind}: {count}" for kind, count in sorted(kinds.items())))


if __name__ == "__main__":
    main()
