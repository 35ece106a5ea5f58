"""Compares ticks with accesses where contracts can't: method by method of the store, what is looked
at and what is counted; and of the index, that addresses are compared by the one function that
counts. Of the calls that check a table it sees that they answer what they find; of what keeps a
table, that nothing beside it could be a copy; of readers and writers, that they ask std. It reads
the sources, and runs nothing. It tries itself, too: on copies in which a look or a count is
hidden."""
import re
import shutil

import pytest

from cases import HOME, expect, failures_of
from sources import code_of, functions

CRATES = HOME / "crates"
STORE, REPLAY = CRATES / "tlsf_store/src", CRATES / "mtrace_replay/src"
NUMBERS = {"One touch": 1, "Two touches": 2, "Three touches": 3, "It isn't a touch": 0}

# Methods of the store whose one access counts as more touches, and as how many more.
MORE = {
    "take_vacant": 1,  # the vacant mark and the record
    "give_vacant": 2,  # the vacant mark is read and written, and the record is written
}
# The one that counts as none: the number of records is no part of the table's content.
UNCOUNTED = {"records"}
# What lends the words of a store, uncounted: who reads them counts. So does `is_whole`, for the one
# call that hands its count on.
LENDS = {
    "words": "self.table.words(&self.heads,self.level_word,&self.step_words,&self.pools)",
    "add_touches": "self.touches.add(more);",
}
# What each method of the table looks at: records, the first vacant one, and how many are vacant;
# that is no more than the store's method of the same work counts, where first and number are one
# vacant mark.
TABLE = {
    "len": (1, 0, 0),
    "read": (1, 0, 0),
    "read_used": (1, 0, 0),
    "is_live": (1, 0, 0),
    "edit": (1, 0, 0),
    "vacant": (0, 0, 1),
    "take": (2, 2, 1),  # of the one record the link is read, and then all is written
    "give": (1, 2, 1),
    "words": (1, 1, 1),  # lent to whoever counts
}
# The functions that look at records one by one, each with a tick of its own: where, and how they
# look at one.
WALKS = {
    "count_vacant": ("vacant_chain.rt", r"\bitem\.is_vacant\(\)"),
    "is_chain": ("vacant_chain.rt", r"&records\[slot\.index\(\)\]"),
    "are_kept": ("words.rt", r"\bitem\.is_kept\("),
}
# Which methods of a key look at its address: `compare`, which counts, and what leaves it to a
# vacant key. Its fields are private to its file.
ADDRESS = {"compare": 2, "vacated": 1}
# Who may ask the keys for a row: the iterator that hands out what is held, for the reports, and who
# asks for a size.
ROW = {"next": 1, "size_of": 1, "rounded_size_of": 1}
# How often each function of the index compares an address.
COMPARES = {"search": 1, "is_last_of": 2}
# How often each function of the index takes a key. A key that is kept could stand for a look that
# isn't counted.
KEYS = {"index: block": 1, "index: remove": 1, "index: next": 1, "keys: move_gap": 1,
        "search: search": 1, "search: is_last_of": 2, "search: nearest_gap": 2,
        "arrange: leave_held": 1, "arrange: space_out": 2}
# Which functions compare addresses otherwise, and why none of these is a key's.
OTHERWISE = {
    "key: compare": 1,  # the one that counts
    "step: is_held_too": 1,  # two addresses of two lines of the log
}
# How the count may be named, outside its own file and tests: it is imported, a field, lent, or made
# where a store or an index is.
NAMED = (r"^(?:pub )?use [\w:]*\bGhostCount;$", r"^use tlsf_store::\{GhostCount, [\w, ]+\};$",
         r"^\s*\w+: GhostCount,$", r"(?::|->) &(?:mut )?GhostCount\b",
         r"^\s*\w+: GhostCount::new\(\),$", r"^\s*let mut touches = GhostCount::new\(\);$")
# The words that are kept count their readings, and `check` hands on the count of `is_whole`.
MADE = {"tlsf_store/src/store.rt": 1, "tlsf_store/src/kept_words.rt": 1,
        "tlsf_heap/src/heap.rt": 1, "mtrace_replay/src/heap/index.rt": 1}
# All fields of what keeps a heap's table: no second one has room beside it.
FIELDS = {"tlsf_heap/src/heap.rt": ("Heap", ["store: Store"]),
          "tlsf_region/src/region.rt": ("Region", ["heap: Heap", "bytes: Vec<u8>"]),
          "tlsf_store/src/store.rt": ("Store", ["table: Table", "heads: [u16; HEADS]",
                                                "level_word: u32", "step_words: [u32; STEP_WORDS]",
                                                "pools: [Option<Pool>; MOST_POOLS]",
                                                "touches: GhostCount"]),
          "tlsf_store/src/table.rt": ("Table", ["items: Vec<PackedRecord>", "first: u16",
                                                "room: u16", "vacant: u32"]),}
HIDES = re.compile(r"\b(for|while|loop|let|match|if|unsafe|iter\w*|map\w*)\b|\||&mut self|&self")
# A change of one record: what makes it names the record once, and nothing of the store.
CHANGE = re.compile(r"self\.table\s*\.edit\(slot, \|item\| (?:item\.|\*item = PackedRecord::)\w+"
                    r"\([\w, ]*\)\);")
OPERATOR = re.compile(r" (==|!=|<|<=|>|>=) |\.(cmp|partial_cmp|eq|ne|lt|le|gt|ge|max|min)\(")


def test_store():
    fields = r"self\.(?:table|heads|level_word|step_words|pools)\b"
    for method in functions(STORE / "store.rt", "impl Store {"):
        name = f"Store::{method.name}"
        if method.name == "create":
            expect(f"{name} makes the one count", method.times(r"GhostCount::new\(\)"), 1)
            continue
        ticks, accesses = method.times(r"self\.touches\.tick\(\);"), method.times(fields)
        if method.name == "restart":
            # The store is made anew in the memory that it has: no touch, as where it is made.
            made = [f"self.{field} = " for field in ("heads", "level_word", "step_words", "pools")]
            expect(f"{name}: each field is made anew once",
                   [method.body.count(each) for each in ["self.table.restart(records);", *made]],
                   [1] * 5)
            expect(f"{name}: no other use of the store", method.times(r"\bself\b"), 5)
            expect(f"{name}: its clause leaves the touches",
                   "ensures touches { self.new.touches ≡ self.old.touches }" in method.head, True)
            continue
        if method.name in LENDS:
            expect(f"{name}: it lends, or counts, and no more", re.sub(r"\s", "", method.body),
                   LENDS[method.name].replace(" ", ""))
            continue
        expect(f"{name}: every use of the store is a tick or an access", method.times(r"\bself\b"),
               ticks + accesses)
        expect(f"{name}: nothing makes more of an access",
               HIDES.findall(CHANGE.sub("", method.body)), [])
        expect(f"{name}: accesses", accesses, 1)
        counted = 0 if method.name in UNCOUNTED else accesses + MORE.get(method.name, 0)
        expect(f"{name}: ticks", ticks, counted)
        told = [number for text, number in NUMBERS.items() if text in method.comment]
        expect(f"{name}: touches that its comment tells", told, [counted])
        clause = re.findall(r"ensures left \{ LeavesAfter .* (\d+) self\.old self\.new \}",
                            method.head)
        expect(f"{name}: touches that its clause tells", clause,
               [] if method.name in UNCOUNTED else [str(counted)])


def aliases(method):
    """The names that a method gives to the records, or to one of them and then uses more than
    once."""
    code = re.sub(r"\s+", " ", method.body)
    found = []
    for name, value in re.findall(r"\blet (?:mut )?(\w+)[^=;]* = ([^;]*);", code):
        if re.search(r"self\.items(?!\[|\.len\(\))", value):
            found.append(name)
        elif "self.items" in value and len(re.findall(rf"\b{name}\b", code)) > 2:
            found.append(name)
    return found


def test_table():
    methods = {method.name: method for method in functions(STORE / "table.rt", "impl Table {")}
    expect("Table: its methods", sorted(methods), sorted([*TABLE, "new", "restart"]))
    for name, wanted in TABLE.items():
        method = methods[name]
        looks = tuple(method.times(pattern) for pattern in (r"self\.items\b", r"self\.first\b",
                                                            r"self\.vacant\b"))
        expect(f"Table::{name}: records, first vacant one and number of vacant ones looked at",
               looks, wanted)
        expect(f"Table::{name}: every use of the table is one of these", method.times(r"\bself\b"),
               sum(wanted))
        expect(f"Table::{name}: no other name for the records", aliases(method), [])
        expect(f"Table::{name}: nothing repeats it",
               re.findall(r"\b(?:for|while|loop|unsafe|iter\w*|map\w*)\b|\|", method.body), [])
    expect("Table::edit: the record is changed once", methods["edit"].body.strip(),
           "change(&mut self.items[slot.index()]);")


def test_walks():
    """Each record that is looked at on the way along the words of a table or its vacant chain is a
    tick."""
    found = {function.name: function for place in ("vacant_chain.rt", "words.rt")
             for function in functions(STORE / place)}
    expect("vacant_chain.rt: its functions",
           sorted(function.name for function in functions(STORE / "vacant_chain.rt")),
           sorted(name for name, (place, _) in WALKS.items() if place == "vacant_chain.rt"))
    for name, (_, look) in WALKS.items():
        function = found[name]
        expect(f"{name}: a record looked at", function.times(look), 1)
        expect(f"{name}: a tick for it", function.times(r"\btouches\.tick\(\);\n\s*(?:if|let)\b.*"
                                                        + look), 1)
        expect(f"{name}: no other tick", function.times(r"\btouches\b"), 1)
        expect(f"{name}: one loop", function.times(r"\b(?:for|while|loop)\b"), 1)
    whole = found["has_table"]
    expect("has_table: looks at no record itself", whole.times(r"\[|\.iter|\.get"), 0)
    for name in WALKS:
        expect(f"has_table: {name} once, with the count",
               (whole.times(rf"\b{name}\("), whole.times(rf"\b{name}\(.*\btouches\)")), (1, 1))
    expect("has_table: no other use of the count", whole.times(r"\btouches\b"), len(WALKS))


def test_kept_words():
    """Each reading of words that are kept is one look and one tick."""
    for method in functions(STORE / "kept_words.rt", "impl<'a> KeptWords<'a> {"):
        name = f"KeptWords::{method.name}"
        if method.name in ("new", "touches"):
            expect(f"{name}: no look", method.times(r"self\.words\b"), 0)
            continue
        counted = 0 if method.name in UNCOUNTED else 1
        looks = method.times(r"self\.words\.\w+")
        ticks = method.times(r"self\.touches\.tick\(\);")
        expect(f"{name}: looks and ticks", (looks, ticks), (1, counted))
        expect(f"{name}: no other use of the words", method.times(r"\bself\b"), looks + ticks)
        expect(f"{name}: nothing repeats it",
               re.findall(r"\b(?:for|while|loop|unsafe|iter\w*|map\w*)\b|\|", method.body), [])


def test_alone():
    """The store's fields are within reach of one file, the table's of another."""
    for path in sorted(STORE.glob("*.rt")):
        code = "\n".join(code_of(path))
        if path.name not in ("store.rt", "vacant_chain.rt", "words.rt", "kept_words.rt"):
            expect(f"{path.name}: no touches", re.findall(r"\btouches\b|impl\b.* Store\b", code),
                   [])
        if path.name not in ("words.rt", "kept_words.rt"):
            expect(f"{path.name}: no look at lent words", re.findall(r"\.records\b", code), [])
        if path.name not in ("store.rt", "table.rt"):
            expect(f"{path.name}: no table", re.findall(r"\bTable\b", code), [])


def test_index():
    key = {method.name: method for method in functions(REPLAY / "heap/key.rt")}
    compare = key["compare"]
    expect("Key::compare counts once", compare.times(r"comparisons\.tick\(\);"), 1)
    expect("Key::compare compares the key's address once",
           (compare.times(r" - u128::from\(own\)"), compare.times(" == ")), (1, 1))
    text = (REPLAY / "heap/key.rt").read_text()
    expect("Key has no comparison of its own",
           re.findall(r"#\[derive\((.*)\)\]\npub\(crate\) struct Key ", text), ["Clone, Copy"])
    fields = re.search(r"struct Key \{\n(.*?)\n\}", text, re.DOTALL).group(1).splitlines()
    expect("Key's fields are private", [field.strip() for field in fields],
           ["address: Addr,", "block: Option<Ptr>,"])
    for path in sorted(path for folder in ("", "heap", "held", "runs")
                       for path in (REPLAY / folder).glob("*.rt")):
        for function in functions(path):
            place = f"{path.name}: {function.name}"
            if path.name == "key.rt":
                expect(f"{place}: a key's address looked at", function.times(r"self\.address\b"),
                       ADDRESS.get(function.name, 0))
            if path.name in ("key.rt", "keys.rt", "search.rt", "index.rt", "arrange.rt"):
                expect(f"{place}: addresses compared", function.times(r"\.compare\("),
                       COMPARES.get(function.name, 0))
                expect(f"{place}: each with the index's count",
                       function.times(r"\.compare\(address, comparisons\)"),
                       COMPARES.get(function.name, 0))
                expect(f"{place}: keys taken", function.times(r"\.key\("),
                       KEYS.get(f"{path.stem}: {function.name}", 0))
            expect(f"{place}: a row asked for", function.times(r"\.row\("),
                   ROW.get(function.name, 0) if path.name == "index.rt"
                   else function.times(r"heap\.row\("))
            lines = function.body.replace(".compare(address, comparisons)", "").splitlines()
            compared = [line.strip() for line in lines if OPERATOR.search(line)
                        and re.search(r"\b(addr|address|entry|own)\b", line)]
            expect(f"{place}: addresses compared otherwise", len(compared),
                   OTHERWISE.get(f"{path.stem}: {function.name}", 0))


def test_counts():
    """A count is made where a store or an index is, and nowhere else, under no other name."""
    text = "\n".join(code_of(STORE / "ghost_count.rt"))
    expect("GhostCount: its functions", re.findall(r"\bfn (\w+)", text), ["new", "tick", "add"])
    expect("GhostCount: nothing copies it",
           re.findall(r"derive\(.*(?:Clone|Copy|Default).*\)|impl (?:Clone|Copy|Default)\b", text),
           [])
    for path in sorted(CRATES.glob("*/src/**/*.rt")):
        place = str(path.relative_to(CRATES))
        lines = [line for line in code_of(path) if re.search(r"\bGhostCount\b", line)]
        if place == "tlsf_store/src/ghost_count.rt" or "/tests/" in place:
            continue
        expect(f"{place}: counts made", sum("GhostCount::new()" in line for line in lines),
               MADE.get(place, 0))
        expect(f"{place}: counts under another name", [line
                                                       for line in lines
                                                       if not any(re.search(form, line)
                                                                  for form in NAMED)], [])


# The bodies of the calls that test a table, whose contracts allow a `true` after as many touches.
CHECKS = {
    "tlsf_region/src/region.rt": ("check", "self.heap.check()"),
    "tlsf_heap/src/heap.rt": ("check", """let mut touches = GhostCount::new();
        let whole = is_whole(self.store.words(), &mut touches);
        self.store.add_touches(&touches);
        whole"""),
    "tlsf_c/src/check.rt": ("tlsf_heap_check", "handle.heap().check()"),
}
# What is done once where an image is loaded: no touch of a store counts a look at its bytes.
LOADS = (r"\bImage::read\(", r"\bfirst_broken\(", r"\bstored\(")


def test_checks():
    """What a test of a table finds is what it answers: no contract says so, as none is ever
    spoiled."""
    for place, (name, body) in CHECKS.items():
        bodies = [function.body.strip() for function in functions(CRATES / place) if function.name
                  == name]
        expect(f"{place}: {name} answers what it finds", bodies, [body])
    for path in sorted((CRATES / "tlsf_heap/src").glob("**/*.rt")):
        lent = len(re.findall(r"\.words\(\)|\.add_touches\(", "\n".join(code_of(path))))
        expect(f"{path.name}: the words of a store lent, and their touches counted", lent,
               2 if path.name == "heap.rt" and path.parent.name == "src" else 0)


def test_loads():
    """An image is read once, and its store is made once."""
    load = next(function for function in functions(CRATES / "tlsf_heap/src/heap.rt")
                if function.name == "load_image")
    expect("Heap::load_image: reads of the image", [load.times(form) for form in LOADS], [1, 0, 1])
    expect("Heap::load_image: no loop", load.times(r"\b(for|while|loop)\b"), 0)


# The calls of readers and writers of std, whose contracts allow a failure that std didn't tell:
# each asks once, whatever its count.
ASKED = {
    "mtrace_log/src/from_read.rt": {
        "pull": """let answer = if self.calls == u64::MAX {
            Err(Failed)
        } else {
            self.calls += 1;
            self.reader.read(buf).map_err(|_| Failed)
        };
        self.trace.add(&Call::pulled(&answer));
        answer""",
        "begin": """let answer = self.reader.rewind().map_err(|_| Failed);
        self.trace.add(&Call::began(&answer));
        answer""",
    },
    "mtrace_log/src/to_write.rt": {
        "put": """let answer = self.writer.write(bytes).map_err(|_| Failed);
        self.trace.add(&Call::offered(bytes.len(), &answer));
        answer""",
        "flush": """let answer = self.writer.flush().map_err(|_| Failed);
        self.trace.add(&Call::flushed(&answer));
        answer""",
    },
}


def test_asked():
    """A read or a write fails where std tells so, or after 2^64 - 1 reads: no clause of std tells a
    failed call."""
    for place, wanted in ASKED.items():
        for name, body in wanted.items():
            bodies = [function.body.strip() for function in functions(CRATES / place)
                      if function.name == name]
            expect(f"{place}: {name} asks std once", bodies, [body])


def test_tables():
    """There is one table: what keeps a heap has these fields and no others, and no static keeps
    what changes."""
    for place, (name, wanted) in FIELDS.items():
        found = re.search(rf"\bstruct {name} \{{\n(.*?)\n\}}", "\n".join(code_of(CRATES / place)),
                          re.S)
        expect(f"{place}: the fields of {name}",
               re.findall(r"^ {4}(?:pub(?:\(crate\))? )?(\w+: .*),$", found[1], re.M), wanted)
        expect(f"{place}: no static", re.findall(r"\bstatic\b|\bthread_local\b",
                                                 "\n".join(code_of(CRATES / place))), [])


# What is hidden in a copy of the sources: where, what stands there, and what takes its place.
TABLE_FILE, INDEX_FILE = "tlsf_store/src/table.rt", "mtrace_replay/src/heap/index.rt"
USED = "        self.items[slot.index()].unpack_used()\n"
WORDS_FILE = "tlsf_store/src/words.rt"
WHOLE = "        let first = link_of(self.first_vacant);\n"
TWICE = "        let _twice = count_vacant(self.records, &mut own);\n"
COUNT_USE = "use super::ghost_count::GhostCount;\n"
FIND = "        let position = search(&self.keys, &mut self.comparisons, address);\n"
PLANTED = {
    "a second look by another name of the records": (TABLE_FILE, [
        (USED,
         "        let records = &self.items;\n"
         "        let _first = records[slot.index()].unpack_used();\n"
         "        records[slot.index()].unpack_used()\n")]),
    "a second look by another name of one record": (TABLE_FILE, [
        (USED,
         "        let item = &self.items[slot.index()];\n"
         "        let _first = item.unpack_used();\n"
         "        item.unpack_used()\n")]),
    "a second look at a record that is changed": ("tlsf_store/src/store.rt", [
        ("|item| item.set_prev(prev)",
         "|item| item.set_prev(item.next())")]),
    "a second scan of the chain, with a count of its own": (WORDS_FILE, [
        (WHOLE,
         "        let mut own = GhostCount::new();\n" + TWICE + WHOLE)]),
    "a second scan, with a count imported under another name": (WORDS_FILE, [
        (COUNT_USE,
         COUNT_USE + "use super::ghost_count::GhostCount as Own;\n"),
        (WHOLE,
         "        let mut own = Own::new();\n" + TWICE + WHOLE)]),
    "a second scan, with a count of another type's name": (WORDS_FILE, [
        (COUNT_USE,
         COUNT_USE + "\n"
         "type Own = GhostCount;\n"),
        (WHOLE,
         "        let mut own = Own::new();\n" + TWICE + WHOLE)]),
    "a read that fails at one number": ("mtrace_log/src/from_read.rt", [
        ("if self.calls == u64::MAX {",
         "if self.calls == u64::MAX || self.calls == 30_000_000_000 {")]),
    "a write that fails above a size": ("mtrace_log/src/to_write.rt", [
        ("let answer = self.writer.write(bytes).map_err(|_| Failed);",
         "let answer = if bytes.len() > 200_000 { Err(Failed) } else { "
         "self.writer.write(bytes).map_err(|_| Failed) };")]),
    "a flush that isn't asked": ("mtrace_log/src/to_write.rt", [
        ("let answer = self.writer.flush().map_err(|_| Failed);",
         "let answer: Result<(), Failed> = Err(Failed);")]),
    "a check of a region that is always true": ("tlsf_region/src/region.rt", [
        ("        self.heap.check()\n",
         "        self.heap.check() || true\n")]),
    "a check of a heap that is always true": ("tlsf_heap/src/heap.rt", [
        ("        let whole = is_whole(self.store.words(), &mut touches);\n",
         "        let whole = is_whole(self.store.words(), &mut touches) || true;\n")]),
    "a look at the words of a store that isn't counted": ("tlsf_heap/src/readings.rt", [
        ("    store.records() - store.vacant()\n",
         "    let _words = store.words();\n"
         "    store.records() - store.vacant()\n")]),
    "a reading of kept words that isn't counted": ("tlsf_store/src/kept_words.rt", [
        ("        let heads = self.words.heads;\n",
         "        let heads = self.words.heads;\n"
         "        let _records = self.words.records;\n")]),
    "a second table in a heap": ("tlsf_heap/src/heap.rt", [
        ("    store: Store,\n"
         "}",
         "    store: Store,\n"
         "    copy: Vec<u32>,\n"
         "}")]),
    "a second search, with a count of its own": (INDEX_FILE, [
        (FIND,
         "        let mut own = GhostCount::new();\n"
         "        let _twice = search(&self.keys, &mut own, address);\n" + FIND)]),
    "a scan of all keys in front of a search": (INDEX_FILE, [
        (FIND,
         "        for at in 0..self.keys.len() {\n"
         "            self.hint = self.keys.key(at).block().map_or(at, |_| self.hint);\n"
         "        }\n" + FIND)]),
    "a check from C that is always true": ("tlsf_c/src/check.rt", [
        ("    handle.heap().check()\n",
         "    handle.heap().check() || true\n")]),
    "an image that is read twice": ("tlsf_heap/src/heap.rt", [
        ("        let mut image = match Image::read(bytes) {\n",
         "        let _twice = Image::read(bytes);\n"
         "        let mut image = match Image::read(bytes) {\n")]),
}
SCANS = [test_store, test_table, test_walks, test_kept_words, test_alone, test_index, test_counts,
         test_checks, test_loads, test_asked, test_tables]
COPIED = ["tlsf_store", "tlsf_heap", "tlsf_region", "mtrace_log", "mtrace_replay", "tlsf_c"]


@pytest.mark.parametrize("name", PLANTED)
def test_planted(name, tmp_path, monkeypatch):
    """Of a copy of the sources with these edits it finds what they hide."""
    place, edits = PLANTED[name]
    for crate in COPIED:
        shutil.copytree(CRATES / crate / "src", tmp_path / crate / "src")
    path = tmp_path / place
    text = path.read_text()
    for old, new in edits:
        expect(f"{name}: what stands there", text.count(old), 1)
        text = text.replace(old, new)
    path.write_text(text)
    for root, at in (("CRATES", ""), ("STORE", "tlsf_store/src"), ("REPLAY", "mtrace_replay/src")):
        monkeypatch.setitem(globals(), root, tmp_path / at)
    expect(f"{name} is found", bool(failures_of(SCANS)), True)
