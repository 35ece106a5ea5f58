"""bin/page: the head of a page tells the log's end, its peak, and who grows."""
import json
import re

import pytest

from cases import expect
from pages import (CHOOSE, LOGS, NO_END, ROOM, browse, driven, grown_in, head_of, page)
from reading import (Model, sites_of)
import servers


@pytest.mark.needs("chromium")
def test_cut_logs():
    """A log without its end says so. Of one whose process went on without it no leak is told, and
    that stands first."""
    log, to = ROOM / "cut.log", ROOM / "cut.html"
    lines = "= Start\n@ keep + 0x10 0x10\n@ drop + 0x20 0x20\n@ drop - 0x20\n"
    for name, end, said, held in (("its end", "= End\n", None,
                                   "16 bytes in 1 block. keep: 16 (100 %). To see which of it is "
                                   "lost, trace it by tlsf-trace --reachable."),
                                  ("no end", "", NO_END,
                                   "16 bytes in 1 block. keep: 16 (100 %). To see which of it is "
                                   "lost, trace it by tlsf-trace --reachable."),
                                  ("a process that went on", "@ cut ! (nil) 0\n", None,
                                   "Not known. Where the log is cut 16 bytes in 1 block were held: "
                                   "keep: 16 (100 %).")):
        log.write_text(lines + end)
        page("--plain", str(log), str(to))
        dom, _ = browse(to)
        expect(f"a log with {name}: whether it has no end", dom.texts.get("no-end"), said)
        expect(f"a log with {name}: not freed", dom.texts["not-freed"], held)
        expect(f"a log with {name}: its first line",
               re.match("Cut The log could not go on|No end A signal|Read cut.log",
                        dom.texts["head"])[0][:3], "Cut" if "cut" in end
               else "No " if said else "Rea")
    log.write_text(lines + "@ keep - 0x10\n@ cut ! (nil) 0\n")
    page("--plain", str(log), str(to))
    expect("a process that went on, with nothing held", browse(to)[0].texts["not-freed"],
           "Nothing where the log is cut.")


def lacking(log):
    """What stands in front of what was read: names and words, by the page of a log."""
    to = ROOM / "lacking.html"
    page("--plain", str(log), str(to))
    dom, said = browse(driven(to, """document.title = JSON.stringify([
        ...document.querySelectorAll("#head p")].map((line) => [line.className,
        ...[...line.children].map((part) => part.textContent)]));"""))
    expect(f"what {log.name} lacks: nothing on the console", said, [])
    lines = json.loads(dom.texts["title"])
    names = [name for _, name, _ in lines]
    expect(f"what {log.name} lacks stands in front", [look for look, *_ in lines],
           [*["lack"] * names.index("Read"), *[""] * len(lines)][:len(lines)])
    return {name: words for look, name, words in lines if look == "lack"}


@pytest.mark.needs("chromium")
def test_lacks():
    """Lost calls, cut stacks and refused lines are told in front, a sentence each."""
    log = ROOM / "lacks.log"
    log.write_text("= Start\n@ a + 0x10 0x10\n= End\n")
    expect("a whole log", lacking(log), {})
    cut = ("The log could not go on, and its process did: what was freed later isn't known, so no "
           "leak is told.")
    for lost, calls in (("0x1f", "31 calls"), ("0x1", "1 call"),
                        ("0xffffffffffffffff", f"{2 ** 64 - 1:,} calls")):
        log.write_text(f"= Start\n@ a + 0x10 0x10\n@ lost ! (nil) {lost}\n@ cut ! (nil) 0\n")
        expect(f"lost calls: {lost}", lacking(log),
               {"Cut": cut, "Lost": f"The log's ring had no room for at least {calls}, and they "
                "are lost."})
    log.write_text("= Start\n@ lost ! (nil) 0x1f\n@ a + 0x10 0x10\n@ cut ! (nil) 0\n")
    expect("a lost mark amid a log", lacking(log), {"Cut": cut})
    log.write_text("@ m1=/lib/a ! (nil) 0\n@ s1=1:5<7<0:0 ! (nil) 0\n@ s2=1:9<7 ! (nil) 0\n"
                   "@ s3=0:0 ! (nil) 0\n@ s1 + 0x10 0x10\n@ s2 + 0x20 0x10\n@ s3 + 0x30 0x10\n"
                   "@ b:[0x1]<?:[0x3]<[0x0] + 0x40 0x10\n@ b:[0x1]<[0x0] + 0x50 0x10\n"
                   "@ big + 0x60 0x7fffffffffffffff\n@ big + 0x70 0x7fffffffffffffff\n")
    expect("cut stacks, refused lines, and no end", lacking(log),
           {"No end": NO_END,
            "Refused": "One heap refuses 2 lines, the first is line 10: sums here are those "
            "without a heap.",
            "Stacks cut": "The stacks of 3 of 6 sites are cut: tlsf-trace --frames tells more of "
            "their calls."})


def limits_of(log):
    """The most blocks, the most bytes in units of 16, and the first line with the most bytes, of a
    log whose lines all serve."""
    held, most, largest, taken = {}, [0, 0], (0, 0), None
    for number, line in enumerate(log.read_text().splitlines(), 1):
        form, *rest = line.split()[2 if line.startswith("@") else 0:]
        if form in "-<":
            taken = rest[0]
            held.pop(taken)
        if form in "+>*":
            held[rest[0]] = -(-int(rest[-1], 16) // 16) * 16
            largest = max(largest, (int(rest[-1], 16), -number))
        most = [max(most[0], len(held)), max(most[1], sum(held.values()))]
    return (f"of at most {most[0]} blocks and {most[1]:,} bytes in units of 16, with no request "
            f"above that of line {-largest[1]}: " f"{largest[0]:,} bytes")


def three_greatest(rows):
    """The three that hold most of a part of the report of sites, with their shares."""
    whole = sum(int(held) for _, held, _ in rows)
    order = sorted(rows, key=lambda row: (-int(row[1]), row[0]))
    return "; ".join(f"{name}: {int(held):,} ({100 * int(held) / whole:.0f} %)"
                     for name, held, _ in order[:3])


@pytest.mark.needs("chromium")
def test_five_lines():
    """The head, by tests/golden/words-fit and the report of sites."""
    head, (at_peak, at_end) = head_of(LOGS / "words.log"), sites_of(LOGS / "words.log")
    expect("the head of words.log", [*head[:3], head[4]],
           ["words.log: 163 lines, 7 sites, no diagnostic.",
            f"8,208 bytes in 39 blocks, after line 136. {three_greatest(at_peak)}.",
            f"1,906 bytes in 21 blocks. {three_greatest(at_end)}. To see which of it is lost, "
            f"trace it by tlsf-trace --reachable.",
            "sure 60,080 bytes; safe 9,792 bytes, for this log; least 9,792 bytes; 105 records. "
            "The sure pool serves any log "
            f"{limits_of(LOGS / 'words.log')} (class size 1,008) at ./words:[0x129e]."])
    for name in ("words.log", "allocations-only.log"):
        expect(f"the head of {name}: who grows", re.findall(r"(\S+): from",
                                                            head_of(LOGS / name)[3]),
               steady_sites(LOGS / name))


def steady_sites(log):
    """Who grows steadily in a log of which each line is drawn: those first that keep it, and of
    these those that grew most. Its end begins a line before the last that asks."""
    states, lines = Model(log.read_bytes()).states, log.read_text().splitlines()
    end = max(number for number, line in enumerate(lines, 1)
              if re.search(r"(?:^| )[+>*] 0x", line)) - 1
    cuts = [-(-(8 + 9 * part) * end // 80) for part in range(8)] + [end + 1]
    sites = {site for state in states for site in state}
    floors = {site: [min(state.get(site, (0, 0))[0] for state in states[begin:end + 1])
                     for begin in cuts[:8]] for site in sites}
    steady = [site for site, floor in floors.items() if floor[0] < floor[2] < floor[4] < floor[6]]
    gives_back = {site: states[-1].get(site, (0, 0))[0] < floors[site][7] for site in steady}
    return [site.decode() for site in sorted(steady, key=lambda site: (gives_back[site],
                                                                       floors[site][0]
                                                                       - floors[site][7]))]


@pytest.mark.needs("chromium")
def test_grows():
    """Who grows steadily: neither what is taken at the start, nor a spike. What is given back at
    the end is told behind what is kept."""
    log, lines = ROOM / "grows.log", [b"@ start + 0x10 0x9000", b"@ spike + 0x20 0x8",
                                      b"@ spike - 0x20"]
    for number in range(50):
        lines += [b"@ leak + 0x%x 0x%x" % (0x1000 + 16 * number, 16 + number % 3),
                  b"- 0x20" if number == 26 else b"@ given + 0x%x 0x40" % (0x9000 + 16 * number)]
        if number == 25:
            lines[-1] = b"@ spike + 0x20 0x20000"
    lines += [b"- 0x%x" % (0x9000 + 16 * number) for number in range(50) if number not in (25, 26)]
    log.write_bytes(b"\n".join(lines) + b"\n")
    to = ROOM / "grows.html"
    page("--plain", "--points", str(len(lines)), str(log), str(to))
    leak, given = ([state.get(name, (0, 0))[0] for state in Model(log.read_bytes()).states]
                   for name in (b"leak", b"given"))
    # Behind line 103 all lines free, so that the end begins one before it. Behind a tenth of these
    # lines is line 11.
    expect("who grows", grown_in(to),
           f"leak: from {leak[11]} bytes early on to {leak[-1]:,} at the end. "
           f"Until line 102, where the program begins to give back what it holds: given: from "
           f"{given[11]} bytes early on to {given[102]:,}.")
    log.write_bytes(b"".join(b"@ a + 0x%x 0x20\n@ b + 0x10 0x8\n- 0x10\n- 0x%x\n"
                             % (16 * number, 16 * number) for number in range(2, 50)))
    page("--plain", str(log), str(to))
    expect("who grows: nobody", grown_in(to),
           "Nothing: no return address holds more and more all along.")
    log.write_bytes(b"@ a + 0x10 0x20\n@ a + 0x20 0x20\n@ a + 0x30 0x20\n")
    page("--plain", str(log), str(to))
    expect("who grows: of three lines", grown_in(to), "Not told: too few lines are drawn.")


@pytest.mark.needs("chromium")
def test_grows_to_the_end():
    """Those that grow, in order, and how many more there are: also one that gives back some in
    between, and takes it again; but not what grows for half of the lines, nor what falls back to
    what it held long before, also where it grows on."""
    log, to, lines = ROOM / "steady.log", ROOM / "steady.html", []
    for number in range(80):
        for at, (name, size) in enumerate({"least": 1, "fourth": 0x20, "second": 0x40,
                                           "third": 0x30, "stops": 0x900, "falls": 0x950,
                                           "dips": 0x960, "less": 8, "fifth": 0x10}.items()):
            if name != "stops" or number < 40:
                lines.append(f"@ {name} + 0x{0x1000 * at + 16 * number + 16:x} 0x{size:x}")
        if number == 56:
            lines += [f"- 0x{0x5000 + 16 * other + 16:x}" for other in range(40)]
            lines += [f"- 0x{0x6000 + 16 * other + 16:x}" for other in range(20)]
            lines += [f"@ dips + 0x{0x6000 + 16 * other + 16:x} 0x960" for other in range(20)]
    log.write_text("\n".join(lines) + "\n")
    page("--plain", "--points", str(len(lines)), str(log), str(to))
    expect("who grows to the end",
           re.findall(r"(\w+): from [\d,]+ bytes early on to ([\d,]+) at the end", grown_in(to)),
           [("dips", f"{80 * 0x960:,}"), ("second", f"{80 * 0x40:,}"), ("third", f"{80 * 0x30:,}"),
            ("fourth", f"{80 * 0x20:,}"), ("fifth", f"{80 * 0x10:,}")])
    expect("who grows to the end: how many more", grown_in(to).endswith("at the end; and 2 more."),
           True)


@pytest.mark.needs("chromium")
def test_grows_up_to_the_peak():
    """Where nothing grows all along it is told who grew most up to the peak, and held that for
    long: neither a burst there, nor what a program has from its start."""
    log, to, lines = ROOM / "phases.log", ROOM / "phases.html", ["@ start + 0x10 0x99999"]
    lines += [f"@ {'phase' if number < 60 else 'work'} + 0x{0x1000 + 16 * number:x} 0x40"
              for number in range(80)]
    # For more than an eighth of the lines up to the peak, and less than a quarter.
    lines.insert(69, "@ burst + 0x20 0x9999")
    lines += ["- 0x20", *(f"- 0x{0x1000 + 16 * number:x}" for number in range(80)),
              *["@ other + 0x30 0x8", "- 0x30"] * 40]
    log.write_text("\n".join(lines) + "\n")
    page("--plain", "--points", str(len(lines)), str(log), str(to))
    # The peak is at line 82; behind a tenth of the lines before it is line 9, with eight blocks of
    # `phase`.
    expect("who grows up to the peak", grown_in(to),
           "Nothing: no return address holds more and more all along. Up to the peak phase grew "
           "most, from 512 bytes early " "on to 3,840.")
    dom, said = browse(driven(to, CHOOSE + 'choose("stack");'))
    expect("who grows up to the peak, by stack",
           (said, dom.texts["grows-steadily"].partition("along. ")[2]),
           ([], "Up to the peak phase grew most, from 512 bytes early on to 3,840."))


@pytest.mark.needs("chromium")
def test_servers_that_grow():
    """Of each of three servers the function that grows is told, and not its cache."""
    for name, made in servers.SERVERS.items():
        server, log, to = made(), ROOM / "server.log", ROOM / "server.html"
        log.write_text(server.text())
        page("--plain", str(log), str(to))
        told = grown_in(to)
        expect(f"{name}: {told}", servers.is_told(told, server), True)


@pytest.mark.needs("chromium")
def test_freed_after_the_range_begins():
    """A block that was given before a range and freed in it is no share above all of the calls in
    it."""
    log, to = ROOM / "freed.log", ROOM / "freed.html"
    log.write_bytes(b"@ a + 0x10 0x40\n@ a - 0x10\n@ b + 0x20 0x10\n")
    page("--plain", str(log), str(to))
    dom, said = browse(to, "#1-2")
    expect("freed in the range", (said, dom.rows("table-temporary")),
           ([], [["a", "1", "0", "100.0 %"]]))
