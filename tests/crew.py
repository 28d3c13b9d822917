"""The program for crews, bin/certify-sheets: a true sentence for every sheet, and a result only from a whole answer of certify."""
import random

import examples
import families
import grammar
import texts
from library import flat
from machine import ROOT
from night import OLD, night, result

SEED, COUNT = 20261119, 40
GOOD, NONE, WIDE = b"2\n77745 1\n1 0\n", b"1\n2\n", b"3\n1 262145 0\n0 1 524288\n0 0 1\n"  # certify answers 0, 7 and 8
WHOLE = b"0 2 21 0\n0 1\n1 -77745\n"
LONGEST = grammar.written(32, [-(2**20)] * 1024)

CAUSES = [  # a text, the place of its 9, and words of the sentence
    (b"2\r\n1 0\r\n0 1\r\n", 1, 2, "Windows line ends"), (b"2\n1 0\r\n0 1\r\n", 2, 4, "Windows line ends"),
    (b"\xef\xbb\xbf1\n1\n", 1, 1, "a byte order mark"), (b"\xff\xfe1\x00\n\x00", 1, 1, "a byte order mark"), (b"1\x00\n\x00", 1, 2, "UTF-16"),
    (b"2\n1\t0\n0\t1\n", 2, 2, "a tab"), (b"2\n1.0 0\n0 1\n", 2, 2, "a decimal point"), (b"2\n1,0\n0,1\n", 2, 2, "a comma"),
    (b"1\n1e0\n", 2, 2, "an exponent"), (b"2\n+1 0\n0 1\n", 2, 1, "a plus sign"), (b"1\n\xe2\x88\x921\n", 2, 1, "outside ASCII"),
    (b"33\n", 1, 2, "an order above 32"), (b"100\n", 1, 3, "an order above 32"), (b"1 0\n0 1\n", 1, 2, "the order alone"),
    (b"\n1\n", 1, 1, "the order alone"), (b"0\n", 1, 1, "the order alone"),
    (b"1\n1048577\n", 2, 7, "an entry too large"), (b"2\n1 0\n0 -1048577\n", 3, 10, "an entry too large"),
    (b"3\n1 0 0\n0 1 0\n", 4, 1, "it ends after 2 of 3 rows, a row is missing"), (b"2\n", 2, 1, "it ends after 0 of 2 rows"),
    (b"2\n1 0\n0", 3, 2, "it ends here, the file was cut short"), (b"2\n1 0\n0 1", 3, 4, "its last line feed is missing"), (b"2", 1, 2, "it ends here"),
    (b"", 1, 1, "the file is empty"), (b"2\n1 0\n0 01\n", 3, 4, "a leading zero"), (b"2\n1 -0\n0 1\n", 2, 4, "a zero with a minus sign"),
    (b"2\n1 -\n0 1\n", 2, 4, "a minus sign without a number"), (b"2\n1-1 0\n", 2, 2, "a minus sign within a number"),
    (b"2\n1  0\n0 1\n", 2, 3, "a space too many"), (b"2\n 1 0\n0 1\n", 2, 1, "a space too many"), (b"2\n1 0 \n0 1\n", 2, 4, "a space at the end of the line"),
    (b"2\n1 0 0\n0 1 0\n", 2, 4, "a row of more than 2 numbers"), (b"3\n1 0\n0 1\n", 2, 4, "the line ends after 2 of 3 numbers"),
    (b"2\n1 0\n\n0 1\n", 3, 1, "an empty line"), (b"2\n1 0\n0 1\n\n", 4, 1, "something follows the 2 rows"),
    (b"1\n1\n1\n", 3, 1, "something follows the 1 rows"),
    (b"1\nx\n", 2, 1, "a byte that no sheet has (120)"), (LONGEST + b"0", 34, 1, "something follows the 32 rows"),
    (LONGEST[:-1], 33, 288, "its last line feed is missing"),
]

EDITS = [  # each makes of the answer WHOLE, by its first such bytes, one that certify never gives
    (b"\n", b"\r\n"), (b" ", b"  "), (b" ", b"\t"), (b"\n0 1", b"\n 0 1"), (b"\n0 1", b""), (b"\n0 1", b"\n"), (b"\n0 1", b"\n0 1\n0 1"),
    *((b"0 2 21 0", first) for first in (b"0 1 21 0", b"0 3 21 0", b"0 2 21", b"0 2 21 0 0", b"0 02 21 0", b"0 2 -21 0", b"00 2 21 0", b"7 2 21 0")),
    *((b"-77745\n", last) for last in (b"-77745\n\n", b"-77745\n0\n", b"-77745 \n", b"-77745\0", b"-77745\0\n", b"-77745 0\n", b"\n", b"-\n", b"x\n")),
    *((b"-77745\n", last) for last in (b"-077745\n", b"-0\n", b"+77745\n", b"77745.0\n", b"7e4\n", b"--7\n")), (b"0 2 21 0", b"\n0 2 21 0"), (b"0 2", b"1 2"),
]
NO_ANSWERS = [  # to the sheet GOOD
    *(WHOLE.replace(*edit, 1) for edit in EDITS), b"0 0 14 0\n", b"0 1 14 0\n1\n", b"0 3 14 1\n1 0 0\n0 1 0\n0 0 1\n", b"7 2 21 0", b"7 2 21 0\n\n",
    b"7 2 21\n", b"7 3 21 0\n", b"7 33 21 0\n", b"11 2 21 0\n", b"6 2 21 0\n", b"-7 2 21 0\n", b"07 2 21 0\n", b"9 0 1 1\n", b"9 1 0 1\n", b"9 1 1 3\n",
    b"9 1 1 0\n", b"9 1 1\n", b"9 1 1 2", b"9 1 1 2\n0\n", b"certify: no\n", b"\n", b"\0",
]


def the_readme_shows_what_is_said():
    readme = (ROOT / "README.md").read_text(encoding="utf8")
    names = [f"examples/{name}" for name in examples.SHEETS]
    with night({name: (ROOT / name).read_bytes() for name in names}) as tonight:
        for name, sentence in zip(names, tonight.run(*names)):
            assert f"\n    {name}: {sentence}\n" in readme, sentence
        assert tonight["examples/good.inverse"].decode() == examples.SHEETS["good.sheet"]
    return f"{len(names)} sheets"


def sheets_of_every_kind():
    """Whole, damaged and cut sheets in one run, against the exact program and the grammar."""
    rng = random.Random(SEED)
    words = {0: "has a whole-number inverse, now in", 7: "has no whole-number inverse", 8: "too wide"}
    made = [texts.sheet(rng) for _ in range(COUNT // 4)] + [texts.damaged(rng, texts.sheet(rng)) for _ in range(COUNT // 4)]
    made += [grammar.written(len(a), flat(a)) for _, a in families.every_kind(rng, 0)][:: 200 // COUNT] + [GOOD, NONE, WIDE]
    sheets = {f"{k}.sheet": text for k, text in enumerate(made)}
    seen = set()
    with night({**sheets, **{result(name): OLD for name in sheets}}) as tonight:
        for name, sentence in zip(sheets, tonight.run(*sheets)):
            told = texts.report(sheets[name], grammar.parse(sheets[name]))
            number, line, column, _ = map(int, told.split(b"\n")[0].split())
            assert words.get(number, f"no sheet, line {line}, column {column}: ") in sentence, (sheets[name][:200], sentence)
            assert tonight[result(name)] == (told if number == 0 else None), (sheets[name][:200], sentence)
            seen.add(number)
    assert seen == {0, 7, 8, 9}, seen
    return f"seed {SEED}, {len(sheets)} sheets"


def ten_sheets_with_one_bad():
    names = [f"station {k}.sheet" for k in range(10)]
    for bad, words in ((NONE, "do not send it"), (WIDE, "do not send it"), (GOOD[:-1], "have it sent again")):
        with night({name: GOOD for name in names}) as tonight:
            tonight[names[6]] = bad
            said = tonight.run(*names)
            assert [words in sentence for sentence in said] == [k == 6 for k in range(10)], said
            assert [tonight[result(name)] for name in names] == [None if k == 6 else WHOLE for k in range(10)]
    return "7, 8 and 9 among them"


def each_cause_of_a_9():
    sheets = {f"{k}.sheet": text for k, (text, *_) in enumerate(CAUSES)}
    with night(sheets) as tonight:
        for (text, line, column, words), sentence in zip(CAUSES, tonight.run(*sheets)):
            assert sentence.startswith(f"no sheet, line {line}, column {column}: ") and words in sentence and "; " in sentence, (text, sentence)
    with night({"a.sheet": GOOD, "answer": b"9 2 3 2\n"}) as tonight:
        tonight.gives_none("it changed while it was read", "a.sheet", certify="cat answer")
    return f"{len(CAUSES)} texts, and one that changes"


def every_cut_of_an_answer():
    with night({"a.sheet": GOOD, "answer": WHOLE}) as tonight:
        for count in range(len(WHOLE)):
            tonight.gives_none("no answer of certify or a cut one", "a.sheet", certify=f"head -c {count} answer")
        tonight.gives(WHOLE, "a.sheet", certify=f"head -c {len(WHOLE)} answer")
    return f"{len(WHOLE)} cuts"


def answers_that_certify_never_gives():
    assert WHOLE not in NO_ANSWERS
    with night({"a.sheet": GOOD}) as tonight:
        for text in NO_ANSWERS:
            tonight["answer"] = text
            tonight.gives_none("no answer of certify or a cut one", "a.sheet", certify="cat answer")
    return f"{len(NO_ANSWERS)} answers"


def a_certify_that_stops():
    with night({"a.sheet": GOOD, "answer": WHOLE}) as tonight:
        for end, status in (("exit 1", 1), ("exit 255", 255), ("kill -9 $$", 137), ("kill -15 $$", 143)):
            tonight["stops"] = f"cat answer\n{end}\n".encode()
            tonight.gives_none(f"certify stopped with status {status};", "a.sheet", certify="sh stops")
        for command in ("no-such-certify", "./answer"):
            tonight.gives_none("certify did not start", "a.sheet", certify=command)
        tonight.gives(WHOLE, "a.sheet", certify="cat answer")
    return "4 ends, 2 that do not start"


def tools_that_fail():
    """Whatever the script's own tools meet, nothing passes for a result."""
    tools = ["awk", "chmod", "head", "mktemp", "mv", "sync", "wc"]
    with night({"a.sheet": GOOD}) as tonight:
        for tool in tools:
            tonight.gives(WHOLE, "a.sheet")
            tonight.command(tool, "exit 1")
            tonight.gives_none("run this again", "a.sheet")
            (tonight.path / tool).unlink()
    return ", ".join(tools)


def checks(lib):
    return [
        the_readme_shows_what_is_said, sheets_of_every_kind, ten_sheets_with_one_bad, each_cause_of_a_9, every_cut_of_an_answer,
        answers_that_certify_never_gives, a_certify_that_stops, tools_that_fail,
    ]
