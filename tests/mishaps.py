"""What befalls a run of bin/certify-sheets: a full disk, sheets that cannot be read, old results, names of every kind, a signal."""
import os
import random
import resource
import signal
import subprocess
import time

import exact
import grammar
import program
import texts
from crew import GOOD, NONE, WHOLE, WIDE
from library import flat
from night import OLD, heard, night, result

SEED = 20261120


def long_sheet():
    """A sheet and its report, which is longer than a page and ends with a number of many digits: three blocks above each other, and the columns turned."""
    rng = random.Random(SEED)
    a = exact.identity(32)
    for i in range(21):
        for j in range(10, 21) if i < 10 else range(21, 32):
            a[i][j] = rng.randrange(-(10**5), 10**5)
    text = grammar.written(32, flat(row[::-1] for row in a))
    told = texts.report(text, grammar.parse(text))
    assert len(told) > 4096 and len(told.split()[-1]) > 5, told
    return text, told


def limited(size):
    resource.setrlimit(resource.RLIMIT_FSIZE, (size, size))


def a_full_disk():
    """certify itself ends with 0 there and leaves a cut file: asserted, so that this cannot pass without a cut."""
    text, told = long_sheet()
    last = len(told.split()[-1])
    limits = [0, 1, len(told) // 2, *range(len(told) - last - 1, len(told))]  # the last ones differ by digits of the last number and its line feed
    with night({"a.sheet": text}) as tonight:
        for limit in limits:
            def small():  # a write past the limit fails, and does not end the writer
                signal.signal(signal.SIGXFSZ, signal.SIG_IGN)
                limited(limit)

            with open(tonight.folder / "plain", "wb") as out, open(tonight.folder / "a.sheet", "rb") as sheet:
                subprocess.run(program.CERTIFY, stdin=sheet, stdout=out, preexec_fn=small, check=True)
            assert tonight["plain"] == told[:limit], limit
            tonight.gives_none("make room on the disk", "a.sheet", prepare=small)
        tonight.gives(told, "a.sheet", prepare=lambda: limited(len(told)))
        tonight.gives_none(f"certify stopped with status {128 + signal.SIGXFSZ}", "a.sheet", prepare=lambda: limited(100))
    return f"{len(limits) + 2} limits on a file's size; {on_a_small_disk(text, told)}"


SMALL_DISK = """# FREE SCRIPT: on a disk that is full but for so many bytes, certify, then the script; prints statuses, sizes and names
set -e
mkdir disk
mount -t tmpfs -o size=256k none disk
cp a.sheet disk
cd disk
echo mounted
cat /dev/zero >ballast 2>/dev/null || truncate -s "-$0" ballast
certify <a.sheet >plain && wc -c <plain
rm plain
"$1" a.sheet || echo "status $?"
ls -A"""


def on_a_small_disk(text, told):
    """The same on a tmpfs that is really full, where one may be mounted."""
    mount = ["unshare", "--mount", *([] if os.geteuid() == 0 else ["--map-root-user"])]
    for free in (0, resource.getpagesize()):
        with night({"a.sheet": text}) as tonight, tonight.start((), before=[*mount, "sh", "-c", SMALL_DISK, str(free)]) as running:
            mounted, *said = heard(running).splitlines() or [""]
        if mounted != "mounted":
            return "no small disk may be mounted here"
        assert free < len(told), "its pages are too large"
        assert said[0] == str(free) and "make room on the disk" in said[1] and said[2:] == ["status 1", "a.sheet", "ballast"], said
    return "a full disk, and one with a page left"


def sheets_that_cannot_be_read():
    """A read of a process's memory at 0 fails for everybody, also for root."""
    with night({"folder.sheet/x": b""}) as tonight:
        os.mkfifo(tonight.folder / "pipe.sheet")
        (tonight.folder / "mem.sheet").symlink_to(f"/proc/{os.getpid()}/mem")
        (tonight.folder / "loop.sheet").symlink_to("loop.sheet")
        cases = {"mem.sheet": "cannot be read", "folder.sheet": "a folder or a device", "pipe.sheet": "a folder or a device", "loop.sheet": "no such file",
                 "missing.sheet": "no such file", "folder.sheet/missing": "no such file", "": "a folder or a device"}
        if os.geteuid() != 0:
            tonight["closed.sheet"] = GOOD
            (tonight.folder / "closed.sheet").chmod(0)
            cases["closed.sheet"] = "cannot be read"
        for name, words in cases.items():
            tonight.gives_none(words, name)
        assert all("no such file" in sentence for sentence in tonight.run("no/folder/a.sheet", "none/a.inverse"))
    return f"{len(cases) + 2} names"


def old_results():
    """Every old result goes before the first sheet is read."""
    with night({"a.sheet": GOOD, "none.sheet": NONE, "wide.sheet": WIDE, "bad.sheet": b"x"}) as tonight:
        tonight.command("looks", "ls -A >>../bin/seen; exec certify")
        tonight.gives_none("", "missing", "none.sheet", "wide.sheet", "bad.sheet", certify="looks")
        seen = (tonight.path / "seen").read_text()
        assert "bad.sheet" in seen and "inverse" not in seen, seen
        tonight["elsewhere"] = OLD
        (tonight.folder / "a.inverse").symlink_to("elsewhere")
        tonight.run("a.sheet")
        assert tonight["a.inverse"] == WHOLE and tonight["elsewhere"] == OLD and not (tonight.folder / "a.inverse").is_symlink()
        folders = ["none.inverse", "a.inverse", "missing.inverse"]
        for name in folders:
            (tonight.folder / name).unlink(missing_ok=True)
            (tonight.folder / name).mkdir()
        said = tonight.run("none.sheet", "a.sheet", "missing.sheet")
        assert all("could not be taken away or came back; do not use it" in sentence for sentence in said), said
        tonight["b.sheet"] = GOOD
        tonight.command("comes", "mkdir b.inverse; exec certify")
        assert "cannot be put at b.inverse" in tonight.run("b.sheet", certify="comes")[0]
        assert not any(any((tonight.folder / name).iterdir()) for name in [*folders, "b.inverse"])
        assert "no file can be made beside it" in tonight.run("/proc/version")[0]
    return "4 sheets, a link, 3 folders and one that comes meanwhile, a place where none can be made"


NAMES = [
    "north field.sheet", " .sheet", "-rf.sheet", "--", "-", "a\nb.sheet", "line feed\n", "*.sheet", "[a].sheet", "a=b.sheet", "%s%n.sheet", "back\\tslash",
    "\033[31m.sheet", "'\"$(touch owned)`touch owned`;.sheet", "größe.sheet", ".sheet", "folder/inner.sheet", "folder/-", "-a folder*/x.sheet",
    "twice.sheet.sheet", "plain", "~", "$HOME",
]


def names_of_every_kind():
    with night({name: GOOD for name in NAMES}) as tonight:
        tonight.gives(WHOLE, *NAMES)
        assert tonight.files() == {*NAMES, *map(result, NAMES)}
        (tonight.folder / "north field.sheet").rename(tonight.folder / "x.sheet")
        tonight.gives(WHOLE, str(tonight.folder / "x.sheet"))
    return f"{len(NAMES) + 1} names"


def two_sheets_with_one_result():
    with night({"a.sheet": GOOD, "a": NONE, "b.sheet": GOOD, "folder/c.sheet": GOOD, "folder/c": NONE, "d.sheet": GOOD, "other/d.sheet": GOOD}) as tonight:
        (tonight.folder / "link").symlink_to("folder")
        for names in ("a.sheet a", "a ./a.sheet", "a.sheet a.sheet", "folder/c link/c.sheet", "folder/../a.sheet ../night/a"):
            tonight.gives_none("two of the names given here", *names.split())
        tonight["a.inverse"] = OLD
        said = tonight.run("a.sheet", "b.sheet", "a")
        assert tonight["b.inverse"] == WHOLE and not tonight.there("a.inverse"), said
        tonight.gives(WHOLE, "d.sheet", "other/d.sheet")
        tonight["a.inverse"] = WHOLE
        said = tonight.run("a.sheet", "./a.inverse", "b.sheet")
        assert "named here as a sheet" in said[0] and "no sheet" in said[1] and tonight["a.inverse"] == WHOLE and tonight["b.inverse"] == WHOLE, said
    return "5 pairs, 1 with others, 1 that is itself named"


SLOW = b"""# gives a whole answer, and ends when it may, or after a minute
cat answer
: >begun
turn=0
until [ -e go ] || [ $turn -ge 1200 ]; do sleep 0.05; turn=$((turn + 1)); done
: >over"""


def a_killed_run():
    ends = [(kill, number) for number in (signal.SIGHUP, signal.SIGINT, signal.SIGQUIT, signal.SIGTERM, signal.SIGKILL) for kill in (os.kill, os.killpg)]
    names = ["a.sheet", "b.sheet"]
    for kill, number in ends:
        with night({"a.sheet": GOOD, "b.sheet": GOOD, "a.inverse": OLD, "b.inverse": OLD, "slow": SLOW, "answer": WHOLE}) as tonight:
            with tonight.start(names, certify="sh slow") as running:
                wait_for(lambda: tonight.there("begun"))
                kill(running.pid, number)
                if kill is os.kill:  # the script alone: certify goes on, and ends well
                    tonight["go"] = b""
                    wait_for(lambda: tonight.there("over"))
                assert heard(running) == "" and running.returncode == (-number if number == signal.SIGKILL else 1), running.returncode
            left = tonight.files() - {"a.sheet", "b.sheet", "slow", "answer", "begun", "go", "over"}
            assert not left or number == signal.SIGKILL and len(left) == 1 and left.pop().startswith(".certify-sheets."), left
    return f"{len(ends)} ways"


def wait_for(true):
    until = time.time() + 60
    while not true():
        assert time.time() < until, "it did not come in a minute"
        time.sleep(0.02)


def how_it_is_called():
    with night({"a.sheet": GOOD}) as tonight:
        with tonight.start([]) as running:
            assert running.stderr.read() == b"usage: certify-sheets SHEET..\n" and heard(running) == "" and running.returncode == 1
        tonight.gives(WHOLE, "a.sheet", certify="env certify")
        tonight["a*"] = WHOLE
        tonight.gives(WHOLE, "a.sheet", certify="cat a*")  # a word, and no pattern
        for umask in (0o022, 0o077, 0o002):
            tonight.gives(WHOLE, "a.sheet", umask=umask)
            assert (tonight.folder / "a.inverse").stat().st_mode & 0o777 == 0o666 & ~umask
        tonight["mine"] = b"mine"
        tonight.gives_none("no such file", "missing.sheet", before=["env", "part=mine", "result=mine", "named=mine"])
        assert tonight["mine"] == b"mine"  # the caller's own variables are not the script's
        with open("/dev/full", "wb") as full, tonight.start(["a.sheet"], stdout=full) as running:
            assert running.wait(60) == 1, "a sentence that cannot be said is no success"
    return "no names, 2 commands of two words, 3 umasks, nowhere to speak"


def checks(lib):
    return [
        a_full_disk, sheets_that_cannot_be_read, old_results, names_of_every_kind, two_sheets_with_one_result, a_killed_run, how_it_is_called,
    ]
