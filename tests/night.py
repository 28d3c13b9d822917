"""A night's folder: sheets in it, and bin/certify-sheets run there with what every run must keep asserted."""
import contextlib
import os
import pathlib
import resource
import shlex
import signal
import subprocess
import tempfile

import program
from machine import ROOT

SCRIPT = ROOT / "bin" / "certify-sheets"
OLD = b"an old result"


def result(name):
    return (name[:-6] if name.endswith(".sheet") else name) + ".inverse"


class Night:
    """certify is on the PATH, together with other commands where a check gives them."""

    def __init__(self, place):
        self.folder = pathlib.Path(place, "night")
        self.path = pathlib.Path(place, "bin")
        self.folder.mkdir()
        self.path.mkdir()
        self.command("certify", f"exec {shlex.join(program.CERTIFY)}")

    def command(self, name, text):
        (self.path / name).write_text(f"#!/bin/sh\n{text}\n", encoding="utf8")
        (self.path / name).chmod(0o755)

    def __setitem__(self, name, text):
        (self.folder / name).parent.mkdir(parents=True, exist_ok=True)
        (self.folder / name).write_bytes(text)

    def __getitem__(self, name):
        """A file's bytes; None where there is none."""
        return (self.folder / name).read_bytes() if (self.folder / name).is_file() else None

    def there(self, name):
        return os.path.lexists(self.folder / name)

    def files(self):
        """All but folders, by their paths from here."""
        return {str(path.relative_to(self.folder)) for path in self.folder.rglob("*") if not path.is_dir()}

    def start(self, names, certify=None, before=(), prepare=lambda: None, **how):
        """A run that begins now, in a session of its own; `before` are the words of a command that starts it, `prepare` is called in its process first."""

        def prepared():
            resource.setrlimit(resource.RLIMIT_CORE, (0, 0))  # a command that a signal ends leaves no file
            prepare()

        environment = {**os.environ, "PATH": f"{self.path}:{os.environ['PATH']}", "CERTIFY": certify or ""}
        how = {"stdin": subprocess.DEVNULL, "stdout": subprocess.PIPE, "stderr": subprocess.PIPE, "start_new_session": True, **how}
        return subprocess.Popen([*before, str(SCRIPT), *names], cwd=self.folder, env=environment, preexec_fn=prepared, **how)

    def run(self, *names, **how):
        """The sentences of a run, without the sheets' names. Asserted: one for each sheet, beginning with its name; the status 0 exactly if every sheet has its
        inverse; nothing made but results."""
        before = self.files()
        with self.start(names, **how) as running:
            said = heard(running)
        shown = ["".join(c if c >= " " else "?" for c in name) + ": " for name in names]
        lines = said.splitlines()
        assert len(lines) == len(names) and all(line.startswith(name) for line, name in zip(lines, shown)), (names, lines)
        assert running.returncode == (0 if all(self[result(name)] is not None for name in names) else 1), (running.returncode, lines)
        assert self.files() <= before | {result(name) for name in names}, self.files() - before
        return [line[len(name):] for line, name in zip(lines, shown)]

    def gives(self, inverse, *names, **how):
        """Runs sheets that must get this inverse, each in place of an old result."""
        for name in names:
            self[result(name)] = OLD
        said = self.run(*names, **how)
        assert all(self[result(name)] == inverse for name in names), said
        return said

    def gives_none(self, words, *names, **how):
        """Runs sheets that must get no result and lose their old one; each sentence has these words."""
        for name in names:
            self[result(name)] = OLD
        for sentence in self.run(*names, **how):
            assert words in sentence, sentence
        assert not any(self.there(result(name)) for name in names), names


def heard(running):
    """What a run says until it ends, which it must."""
    try:
        return running.communicate(timeout=60)[0].decode(errors="surrogateescape")
    except subprocess.TimeoutExpired:
        os.killpg(running.pid, signal.SIGKILL)
        raise


@contextlib.contextmanager
def night(files=()):
    """A folder for a while, with these files."""
    with tempfile.TemporaryDirectory() as place:
        made = Night(place)
        for name, text in dict(files).items():
            made[name] = text
        yield made
