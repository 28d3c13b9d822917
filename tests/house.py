"""Rules of the repository that the prover does not know."""
import pathlib
import re
import shutil
import subprocess
import tempfile

import edits
from edits import CRATES, PARTS
from machine import ROOT

# The definitions that the promises of the public calls rest on: what a reader must believe.
BELIEVED = [
    "numbers/specs/Numbers.antt", "numbers/specs/Limits.antt", "numbers/specs/Refusals.antt", "numbers/specs/Reasons.antt",
    "tables/specs/Tables.antt", "tables/specs/Views.antt",
    "lifting/specs/Lifting.antt", "lifting/specs/Views.antt",
    "verdict/specs/Verdict.antt",
    "octets/specs/Bytes.antt", "host/specs/Host.antt",
    "sheets/specs/Sheet.antt", "sheets/specs/Place.antt", "sheets/specs/Answer.antt",
    "reports/specs/Report.antt", "inputs/specs/Inputs.antt", "certify/specs/Program.antt",
]
MOST_BELIEVED = 450

# The public calls, by file.
CALLS = {
    "tables/src/lib.rt": ["row"], "lifting/src/lib.rt": ["lift", "block"], "verdict/src/lib.rt": ["verdict", "inverse"],
    "host/src/lib.rt": ["muljenta_verdict", "muljenta_inverse"], "sheets/src/lib.rt": ["read"], "reports/src/lib.rt": ["report"],
}

# How the docs cite: names in backticks, and in brackets the file below crates/ that defines them.
FILE = r"\w+/(?:specs|proofs|src)/[\w/+]+\.(?:antt|rt)"
CITATION = rf"(`[^`\s]+`(?:, `[^`\s]+`)*) \(({FILE})\)"


def sources(*parts):
    """The .antt files of the crates' own folders; what rt made of them stands in out/."""
    return [path for part in parts for path in sorted(CRATES.glob(f"*/{part}/**/*.antt"))]


def lines(path):
    """The lines of a file without comments, imports and blank lines."""
    text = path.read_text(encoding="utf8").splitlines()
    return [l for l in text if l.strip() and not re.match(r"\s*(--|//|use |ghost use |pub mod |mod )", l)]


def layout():
    """`rt fmt` changes nothing; it is run on copies, for it writes what it finds."""
    crates = sorted(edits.rows())
    with tempfile.TemporaryDirectory(prefix="muljenta-layout-") as room:
        for crate in crates:
            copy = pathlib.Path(room, crate)
            for part in PARTS:
                if (CRATES / crate / part).is_dir():
                    shutil.copytree(CRATES / crate / part, copy / part)
            subprocess.run(["rt", "fmt"], cwd=copy, check=True, capture_output=True)
            changed = [path.relative_to(room) for path in copy.rglob("*") if path.is_file() and path.read_bytes() != (CRATES / path.relative_to(room)).read_bytes()]
            assert not changed, f"run `rt fmt` in crates/{crate}: {[str(path) for path in changed]}"
    return f"rt fmt of {len(crates)} crates"


def definitions_to_believe():
    count = sum(len(lines(CRATES / name)) for name in BELIEVED)
    assert count <= MOST_BELIEVED, f"{count} lines"
    return f"{count} lines in {len(BELIEVED)} files"


def no_shortcut():
    """No axiom of our own, no hole, no classical axiom."""
    files = sources("specs", "proofs")
    for path in files:
        for line in lines(path):
            bad = re.search(r"\b(postulate|axiom|lem|ac)\b|(?<![\w?])\?(?![\w?])", re.sub(r"--.*", "", line))
            assert not bad, f"{path}: {line}"
    return f"{len(files)} files"


def definitions(path):
    """The names that a file of definitions defines."""
    return re.findall(r"^(?:abbrev |unfoldable )?pub (?:record |data )?(?!use )([^\s:({]+)", path.read_text(encoding="utf8"), re.M)


def every_definition_file_opens_with_its_names():
    files = [p for p in sources("specs") if p.name != "Lib.antt"]
    for path in files:
        opening = re.match(r"(?:--.*\n)*", path.read_text(encoding="utf8")).group()
        absent = [n for n in definitions(path) if not all(part in opening for part in n.split("◌"))]
        assert opening and not absent, f"{path}: {absent}"
    return f"{len(files)} files"


def words(page):
    """A page's text in one line."""
    return " ".join(page.read_text(encoding="utf8").split())


def citations(page):
    """The names that a page cites, each with its file."""
    return [(name, file) for names, file in re.findall(CITATION, words(page)) for name in names.replace("`", "").split(", ")]


def defines(path, name):
    """Whether a file defines a name; R.f is the field or case f of R."""
    if not path.exists():
        return False
    text = path.read_text(encoding="utf8")
    if path.suffix == ".rt":
        return re.search(rf"^ *(?:pub )?(?:fn|const|struct|enum) {re.escape(name)}\b", text, re.M)
    owner, _, part = map(re.escape, name.partition("."))
    indent = "" if "/specs/" in str(path) else " *"  # a theorem may stand in a module; an indented name in specs/ is a field
    found = re.search(rf"^{indent}(?:abbrev |unfoldable )?(?:pub )?(?:(?:record|data) {owner}(?!\S)|{owner} :).*\n((?: .*\n)*)", text, re.M)
    return found and (not part or re.search(rf"^ +(?:pub )?{part} :", found.group(1), re.M))


def the_docs_cite_what_is_defined():
    pages = [*ROOT.glob("*.md"), *ROOT.glob("docs/*.md")]
    cited = [(page.name, name, file) for page in pages for name, file in citations(page)]
    absent = [f"{page}: {name} ({file})" for page, name, file in cited if not defines(CRATES / file, name)]
    assert cited and not absent, absent
    return f"{len(cited)} citations"


def the_rules_cite_every_definition_to_believe():
    """So the page is whole: what a public promise rests on is said there in words. No file may stand there in another form, or its names would not be
    looked up."""
    page = ROOT / "docs" / "RULES.md"
    other = re.findall(FILE, re.sub(CITATION, "", words(page)))
    assert not other, f"no citations: {other}"
    cited = {(file, name.partition(".")[0]) for name, file in citations(page)}
    believed = [(file, name) for file in BELIEVED for name in definitions(CRATES / file)]
    absent = [f"{name} ({file})" for file, name in believed if (file, name) not in cited]
    assert not absent, absent
    return f"{len(believed)} definitions"


# What shows nothing false by itself, by the name of what is refused: a callee is not asked rightly, or the parts of a function's proof (collected in its _spec) are
# not those of the code. (What was refused above and is missing here has a complaint without a name.)
HOLLOW = r".*-requires(?:-.*)?|.*[-_]spec"


def wrong_builds():
    """Of each wrong build in must-fail/: its edit, its name, the proof that must refuse it, and the theorem there that it makes false, which every build of a
    statement names. An edit has at most one build to a proof, so that what a proof complains of is its own build."""
    found = []
    for edit in edits.edits():
        text = edit.read_text(encoding="utf8")
        builds = re.findall(r"^-- (\w+) \(([\w/]+)(?:\.([\w-]+))?\): \S.*\nfile: (\w+)/", text, re.M)
        proofs = {place for _, place, _, _ in builds}
        assert builds and len(builds) == len(proofs) == len(re.findall("^file: ", text, re.M)), edit
        assert all(theorem or part == "src" for _, _, theorem, part in builds), f"{edit}: a statement, and no theorem that is false"
        found += [(edit, name, place, theorem) for name, place, theorem, _ in builds]
    return found


def complaints(crate, place, text):
    """The names of what a log says is refused in a proof: declarations of its files, and goals that are left to the prover's own search, which it names where it
    says that they are open: after the function's name, and at lines of the function. That a rewrite finds nothing to rewrite says only that a proof no longer fits."""
    function = "::".join([crate, *place.split("/")])
    files = {f"src/{path.name}": functions(path) for path in CRATES.glob(f"{crate}/src/*.rt")}
    found = []
    for line in text.splitlines():
        if declared := re.match(rf"(?:\./)?proofs/{place}(?:/(?:Proof|Invariants|Answers))?\.antt:\d+:\d+: error: `([^`]+)`:(?! `rw`: no occurrence)", line):
            found.append(declared.group(1))
        elif searched := re.match(rf"fn {function}: no proof: .*did not prove ([^;]*)", line):
            found += re.findall("`([^`]+)`", searched.group(1))
        elif at := re.match(r"note: (src/[\w/]+\.rt):(\d+):\d+: it is not proved that .*\(`([^`]+)`\)", line):
            above = [name for begins, name, _ in files[at.group(1)] if begins <= int(at.group(2))]
            found += [at.group(3)] if above[-1:] == [function] else []
    return found


def wrong_builds_are_refused_for_a_false_fact():
    """An edit that only makes a proof file unfit for the code shows nothing, and a call whose requirement fails says only that the callee is not asked
    rightly: something more must be false."""
    builds = wrong_builds()
    logs = edits.logs(edits.edits())
    for edit, name, place, theorem in builds:
        text, log = logs[edit], f"{edit.parent.parent.name}/{edit.stem}"
        assert text, f"{log}: the check gave no verdict"
        unfit = [line for line in text.splitlines() if re.search(r": error: .*(that can be named from here|has no field|is not in scope)", line)]
        assert not unfit, f"{log}: {unfit[:1]}"
        refused = complaints(edit.parent.parent.name, place, text)
        assert refused, f"{log}: {name}: its own proof says nothing"
        false = [part for part in refused if not re.fullmatch(HOLLOW, part)]
        assert false, f"{log}: {name}: only a requirement fails"
        assert not theorem or theorem in false, f"{log}: {name}: {theorem} is not refused"
    return f"{len(builds)} builds in {len(logs)} edits"


def every_wrong_build_is_named_in_the_calls():
    """And every name in 'Wrong answers that were tried' is one of a wrong build."""
    page = (ROOT / "docs" / "CALLS.md").read_text(encoding="utf8")
    tried = re.search(r"^## Wrong answers that were tried$.*?(?=^## )", page, re.M | re.S).group()
    named = set(re.findall(r"`(\w+)`", tried))
    names = {name for _, name, _, _ in wrong_builds()}
    assert names == named, names ^ named
    return f"{len(names)} names"


def functions(path):
    """The functions of a source file in their order: the line where one begins, attributes included, its name as crates that call it write it
    (crate::module::Type::function), and whether it is public."""
    crate, module = path.parts[-3], path.stem
    found, owner, begins = [], "", None
    for number, line in enumerate(path.read_text(encoding="utf8").splitlines(), 1):
        if head := re.match(r"impl (\w+)", line):
            owner = head.group(1)
        elif line == "}":
            owner = ""
        elif name := re.match(r' *(pub )?(?:extern "C" )?fn (\w+)', line):
            parts = (crate, "" if module in ("lib", "main") else module, owner, name.group(2))
            found.append((begins or number, "::".join(part for part in parts if part), bool(name.group(1))))
        begins = (begins or number) if re.match(r" *#\[", line) else None
    return found


def every_inner_function_is_in_the_calls():
    """What is pub and no call has its line in 'Inner functions', where a::{b, c} stands for a::b and a::c. (Exports for tests have one line.)"""
    page = (ROOT / "docs" / "CALLS.md").read_text(encoding="utf8").partition("## Inner functions")[2]
    named = [(path, name) for cell in re.findall(r"^\| (.*?) \|", page, re.M) for path, name in re.findall(r"`([\w:]+)::\{?([\w, ]+)\}?`", cell)]
    listed = {f"{path}::{name}" for path, names in named for name in names.split(", ")}
    calls = {f"{file.split('/')[0]}::{name}" for file, names in CALLS.items() for name in names}
    public = {name for path in CRATES.glob("*/src/*.rt") if "probe" not in path.parts for _, name, is_public in functions(path) if is_public}
    assert listed == public - calls, listed ^ (public - calls)
    return f"{len(listed)} functions"


def public_calls_require_nothing():
    for name, functions in CALLS.items():
        text = (CRATES / name).read_text(encoding="utf8")
        for function in functions:
            head = re.search(rf"pub (?:extern \"C\" )?fn {function}\(.*?\n\{{", text, re.S)
            assert head and "requires" not in head.group(), f"{name}: {function}"
            assert "ensures" in head.group(), f"{name}: {function}"
    return f"{sum(map(len, CALLS.values()))} calls"


def the_header_has_the_version_of_the_changelog():
    version = re.search(r"^## (\S+), \d{4}-\d\d-\d\d$", (ROOT / "CHANGELOG.md").read_text(encoding="utf8"), re.M).group(1)
    header = (ROOT / "include" / "muljenta.h").read_text(encoding="utf8")
    assert f'#define MULJENTA_VERSION "{version}"' in header, version
    return version


def checks(lib):
    return [
        layout, definitions_to_believe, no_shortcut, every_definition_file_opens_with_its_names,
        the_docs_cite_what_is_defined, the_rules_cite_every_definition_to_believe,
        wrong_builds_are_refused_for_a_false_fact, every_wrong_build_is_named_in_the_calls, every_inner_function_is_in_the_calls,
        public_calls_require_nothing,
        the_header_has_the_version_of_the_changelog,
    ]
