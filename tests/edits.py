"""What `rt check` says of a crate with a must-fail edit made in it, whole. `rt ci` and `rt must-fail` try the edits too, but show a line of each at most and keep
no log; so here each is made once more, in a copy of its crate outside the repository, over what was proved last here. The logs stand below target/must-fail; what
has not changed since, with all that it rests on, is not tried again.
usage: edits.py [CRATE..]   (tries their edits, or all, and names the logs)"""
import concurrent.futures
import fcntl
import hashlib
import os
import pathlib
import re
import shutil
import subprocess
import sys
import tempfile

from machine import ROOT

CRATES = ROOT / "crates"
LOGS = ROOT / "target" / "must-fail"
# The copies have the same places at each run, for `rt` notes every folder that it has checked a crate in.
COPIES = pathlib.Path(tempfile.gettempdir(), f"muljenta-edits-{os.geteuid()}-{hashlib.sha256(str(ROOT).encode()).hexdigest()[:16]}")
PARTS = ("src", "specs", "proofs")
MEMORY = 3_000_000_000  # what a check may take, in bytes


def edits(crates=("*",)):
    return sorted(edit for crate in crates for edit in CRATES.glob(f"{crate}/must-fail/*.edit"))


def rows():
    """The lines of crates.txt, by crate, without comments."""
    lines = [line.partition("#")[0].strip() for line in (ROOT / "crates.txt").read_text(encoding="utf8").splitlines()]
    return {line.split(":")[0].split()[0]: line for line in lines if line}


def below(crate):
    """The repository's crates that a crate rests on."""
    listed, found = rows(), set()
    for name in listed[crate].partition(":")[2].split():
        if name in listed:
            found |= {name, *below(name)}
    return sorted(found)


class Edit:
    """An edit, and its log."""

    def __init__(self, path):
        self.path, self.crate = path, path.parent.parent.name
        self.below = below(self.crate)
        self.log = LOGS / self.crate / f"{path.stem}.log"

    def texts(self):
        """The texts of the files that it changes, by their path in the crate."""
        texts, file, old = {}, "", ""
        for kind, text in re.findall(r"^(file|old|new): ?(.*)$", self.path.read_text(encoding="utf8"), re.M):
            if kind == "file":
                file = text
                texts.setdefault(file, (CRATES / self.crate / file).read_text(encoding="utf8"))
            elif kind == "old":
                old = text
            else:
                assert texts[file].count(old) == 1, f"{self.path}: {old!r} does not stand once in {file}"
                texts[file] = texts[file].replace(old, text)
        return texts

    def stamp(self):
        """The first line of its log: a sum of all that the log rests on."""
        crates = [*self.below, self.crate]
        files = [path for name in crates for part in PARTS for path in sorted((CRATES / name / part).rglob("*")) if path.is_file()]
        told = [subprocess.run(["rt", "version"], capture_output=True, check=True).stdout, self.path.read_bytes()]
        told += [rows()[name] for name in crates] + [(str(path.relative_to(CRATES)), path.read_bytes()) for path in files]
        return f"of {hashlib.sha256(repr(told).encode()).hexdigest()}"

    def kept(self):
        """What the check said, where nothing has changed since."""
        of, _, text = self.log.read_text(encoding="utf8").partition("\n") if self.log.exists() else ("", "", "")
        return text if of == self.stamp() else None

    def made(self):
        """What the check says of a copy of the crate with this edit."""
        listed, room = rows(), COPIES / self.crate / self.path.stem
        shutil.rmtree(room, ignore_errors=True)
        room.mkdir(parents=True)
        try:
            (room / "crates.txt").write_text("".join(f"{listed[name]}\n" for name in [*self.below, self.crate]), encoding="utf8")
            for name in [*self.below, self.crate]:
                for part in (*PARTS, "out/incremental" if name == self.crate else "out/rlib"):
                    if (CRATES / name / part).is_dir():
                        shutil.copytree(CRATES / name / part, room / "crates" / name / part)
            for file, text in self.texts().items():
                (room / "crates" / self.crate / file).write_text(text, encoding="utf8")
            return checked(room / "crates" / self.crate)
        finally:
            shutil.rmtree(room, ignore_errors=True)

    def tried(self):
        """What the check says, which is kept; None where it gave no verdict."""
        stamp = self.stamp()
        for _ in range(2):  # a check that is killed, for memory say, is made again
            text = self.made()
            if re.search(r"^logic=", text, re.M):
                self.log.parent.mkdir(parents=True, exist_ok=True)
                self.log.write_text(f"{stamp}\n{text}", encoding="utf8")
                return text
        print(f"{self.path.relative_to(CRATES)}: no verdict\n{text[-2000:]}", flush=True)
        return None


def checked(folder):
    command = {"cwd": folder, "stdin": subprocess.DEVNULL, "stdout": subprocess.PIPE, "stderr": subprocess.STDOUT}
    return subprocess.run(["rt", "check", "--jobs", "1"], text=True, errors="replace", **command).stdout


def logs(paths):
    """The logs of edits, several made at a time; one run at a time makes them."""
    LOGS.mkdir(parents=True, exist_ok=True)
    with open(LOGS / "lock", "w", encoding="utf8") as lock:
        fcntl.flock(lock, fcntl.LOCK_EX)
        COPIES.mkdir(mode=0o700, exist_ok=True)
        assert COPIES.stat().st_uid == os.geteuid() and not COPIES.is_symlink(), COPIES
        try:
            return all_logs(paths)
        finally:
            shutil.rmtree(COPIES, ignore_errors=True)


def all_logs(paths):
    wanted = {path: Edit(path) for path in paths}
    texts = {path: edit.kept() for path, edit in wanted.items()}
    left = [path for path in paths if texts[path] is None]
    for crate in sorted({wanted[path].crate for path in left}):  # what no earlier command built here is proved once, and not in each copy
        work = [CRATES / crate / "out/incremental", *(CRATES / name / "out/rlib" for name in below(crate))]
        if not all(folder.is_dir() for folder in work):
            checked(CRATES / crate)
    free = int(re.search(r"^MemAvailable: +(\d+)", pathlib.Path("/proc/meminfo").read_text(encoding="utf8"), re.M).group(1)) * 1024
    with concurrent.futures.ThreadPoolExecutor(max(1, min(len(os.sched_getaffinity(0)), free // MEMORY))) as pool:
        texts.update(zip(left, pool.map(lambda path: wanted[path].tried(), left)))
    return texts


if __name__ == "__main__":
    for path, text in logs(edits(sys.argv[1:] or ("*",))).items():
        print(f"{path.relative_to(CRATES)}: {Edit(path).log.relative_to(ROOT) if text else 'no verdict'}")
