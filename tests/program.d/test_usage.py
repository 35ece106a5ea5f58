"""Wrong words. tests/golden has help, the version, and settings that are bad."""
from pathlib import Path

import pytest

from runs import CAUSES, expect_run, run

pytestmark = pytest.mark.both
FIVE = ["leaks", "peak", "walk", "sites", "timeline"]
BAD_NUMBERS = ["1e6", "-16", "-1", "x", "1.5", "1 2", "0x10", "99999999999999999999"]
# What each option takes, an example, and words that have all but it.
NUMBERS = {
    "--points": ("a whole number from 1 to 10000", 100, ["timeline"]),
    "--step": ("a multiple of 16 from 16 to 1073741808", 4096, ["fit"]),
    "--blocks": ("a whole number from 1 to 32766", 60, ["size", "--largest", "1040"]),
    "--largest": ("a whole number from 1 to 1056964608", 1040, ["size", "--blocks", "60"]),
    "--bytes": ("a whole number from 1 to 1073741808", 20480,
                ["size", "--blocks", "60", "--largest", "1040"]),
    "--align": ("a power of two from 1 to 536870912", 64, ["size"]),
    "--front": ("a whole number from 0 to 1073741808", 8, ["fit", "log"]),
}
# Values beyond the range of each.
BEYOND = {"--step": ["0", "4", "15", "1073741809"], "--blocks": ["0", "32767"],
          "--largest": ["0", "1056964609"], "--bytes": ["0", "1073741809"],
          "--front": ["1073741809"]}
OF_A_HEAP = {"--pool": "<BYTES>", "--pools": "<K>", "--records": "<N>"}


def expect_wrong(text, *words):
    """These words ask for no report; this is said on standard error, and how to ask."""
    expect_run(f"wrong words: {' '.join(words)}", run(*words), 2, b"",
               f"error: {text}\n\nFor more information, try '--help'.\n".encode())


def expect_number(option, value, *words):
    """The option doesn't take this value; it is told what it takes."""
    takes, example, _ = NUMBERS[option]
    expect_wrong(f"{option}: {takes}, not {value}; for example {option} {example}", *words)


def test_subcommands():
    usage = "\n\nUsage: tlsf <COMMAND>"
    expect_wrong("'tlsf' requires a subcommand but one was not provided\n  [subcommands: leaks, "
                 f"peak, walk, sites, timeline, fit, size, save, check, help]{usage}")
    expect_wrong(f"unrecognized subcommand 'frees'{usage}", "frees", "log")
    expect_wrong(f"unexpected argument '--pool' found\n\n  tip: 'leaks --pool' exists{usage}",
                 "--pool", "64", "leaks", "log")


@pytest.mark.parametrize("report", FIVE)
def test_words_of_a_report(report):
    expect_wrong("the following required arguments were not provided:\n  <LOG>\n\n"
                 f"Usage: tlsf {report} <LOG>", report)
    expect_wrong(f"unexpected argument 'other' found\n\nUsage: tlsf {report} [OPTIONS] <LOG>",
                 report, "log", "other")
    expect_wrong("unexpected argument '--pol' found\n\n  tip: a similar argument exists: '--pool'"
                 f"\n\nUsage: tlsf {report} --pool <BYTES> <LOG>", report, "--pol", "8", "log")


@pytest.mark.parametrize("report", FIVE)
@pytest.mark.parametrize("option, values, told", [
    ("--pool", [4, 12, 15, 1073741809, 1073741816], "16..=1073741808"),
    ("--pools", [0, 9], "1..=8"), ("--records", [0, 65536], "1..=65535")])
def test_values_beyond_a_range(report, option, values, told):
    for value in values:
        expect_wrong(f"invalid value '{value}' for '{option} {OF_A_HEAP[option]}': {value} is not "
                     f"in {told}", report, option, str(value), "log")


def test_a_value_that_is_no_number():
    expect_wrong("invalid value 'x' for '--pool <BYTES>': invalid digit found in string", "peak",
                 "--pool", "x", "log")


@pytest.mark.parametrize("report", [*FIVE, "save"])
def test_numbers_with_a_sign(report):
    """A number with a sign is the option's value, and no word that could stand behind `--`."""
    wrong = [("--pool", value, "invalid digit found in string") for value in ("-1", "-16", "-0")]
    wrong += [("--pools", "-1", "-1 is not in 1..=8"),
              ("--records", "-1", "-1 is not in 1..=65535")]
    for option, value, told in wrong:
        text = f"invalid value '{value}' for '{option} {OF_A_HEAP[option]}': {told}"
        expect_wrong(text, report, option, value, "log")
        expect_wrong(text, report, f"{option}={value}", "log")


@pytest.mark.parametrize("option", NUMBERS)
@pytest.mark.parametrize("value", BAD_NUMBERS)
def test_numbers(option, value):
    """An option doesn't take the value, behind a space and behind `=`."""
    command = NUMBERS[option][2][0]
    expect_number(option, value, command, f"{option}={value}")
    expect_number(option, value, command, option, value)


def test_no_number():
    expect_number("--points", "nothing", "timeline", "--points")
    expect_number("--step", "''", "fit", "--step=", "log")
    expect_number("--step", "''", "fit", "--step", "", "log")


@pytest.mark.parametrize("option, value", [(option, value) for option, values in BEYOND.items()
                                           for value in values])
def test_numbers_beyond_a_range(option, value):
    log = ["log"] if option == "--step" else []
    expect_number(option, value, *NUMBERS[option][2], option, value, *log)


ALL = ["leaks", "peak", "walk", "save", "check", "sites", "fit", "timeline", "size"]


def expect_no_option(command, option, of, *values):
    """A command that doesn't have the option, which is one of these commands."""
    expect_wrong(f"{command} has no option {option}; it is an option of {of}", command, *values,
                 "log")


def test_options_of_other_commands():
    for option in OF_A_HEAP:
        for command in ("fit", "size"):
            of = "leaks, peak, walk, sites, timeline and save"
            expect_no_option(command, option, of, option, "8")
            expect_no_option(command, option, of, f"{option}=8")
    for option, of in (("--step", "fit"), ("--points", "timeline"), ("--blocks", "size"),
                       ("--largest", "size"), ("--bytes", "size"), ("--align", "size"),
                       ("--front", "fit and size")):
        for command in ALL:
            if command not in of.split():
                expect_no_option(command, option, of, option, "16")


@pytest.mark.parametrize("word, usage, words", [
    ("--pool", "check <IMAGE>", ["check", "--pool", "64", "image"]),
    ("-1", "leaks [OPTIONS] <LOG>", ["leaks", "-1"]),
    ("-s", "fit [OPTIONS] <LOG>", ["fit", "--step", "-s", "log"])])
def test_words_that_no_option_is(word, usage, words):
    expect_wrong(f"unexpected argument '{word}' found\n\n  tip: to pass '{word}' as a value, use "
                 f"'-- {word}'\n\nUsage: tlsf {usage}", *words)


def test_words_of_fit_and_size():
    expect_wrong("the following required arguments were not provided:\n  <LOG>\n\n"
                 "Usage: tlsf fit <LOG>", "fit")
    for words in ([], ["--blocks", "60"], ["--largest", "1040"]):
        expect_wrong("size takes --blocks and --largest, or --part", "size", *words)
    expect_wrong("unexpected argument 'log' found\n\nUsage: tlsf size [OPTIONS]", "size",
                 "--blocks", "60", "--largest", "1040", "log")


def test_parts():
    for words in (["20x64", "--bytes", "64"], ["20x64", "--front", "8", "--align", "16"],
                  ["1x1"] + ["--part", "1x1"] * 8):
        expect_wrong("--part takes no option beside it but --front, and stands at most 8 times",
                     "size", "--part", *words)
    for value in ("64", "x64", "20x", "20x64x", "0x64", "65536x64", "20x0", "20x1056964609"):
        expect_wrong("--part takes LxM: L blocks, from 1 to 65535, of at most M bytes, from 1 to "
                     "1056964608", "size", "--part", value)


@pytest.mark.parametrize("words", [["fit", "--heaps", "2", "log"],
                                   ["size", "--blocks", "60", "--largest", "1040"],
                                   ["size", "--part", "20x64"]], ids=" ".join)
@pytest.mark.parametrize("value", ["1073741809", "x", "-8"])
def test_a_bad_front(words, value):
    for front in (["--front", value], [f"--front={value}"]):
        expect_number("--front", value, words[0], *front, *words[1:])


def test_a_pool_of_17_bytes_for_an_image():
    Path("empty").touch()
    expect_run("save", run("save", "--pool", "17", "empty", "image", env=CAUSES), 2, b"",
               b"tlsf: bad settings\ntlsf: --pool 17 is no multiple of 16\n")
