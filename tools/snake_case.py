#!/usr/bin/env python3
"""Spells the repository's own definitions and lemmas as today's Rattle does: words in snake case, types and modules in camel case. It is for the older tree as
port.py left it, and ran there once, in the commit that docs/PORT.md names: what was written later has names that it does not know.
usage: snake_case.py [--check] [FOLDER]   (--check prints the table and the names that fall together, and writes nothing)

What is declared in an .antt file is renamed wherever it is cited: in .antt, .rt and .edit files, and between backticks in pages. A dash stays where it joins an
operator (cong-+, ·-assoc). Names that Rattle makes from the code, and a function proof's own answers to them, are left. Functions of src/ have no such names."""
import collections
import pathlib
import re
import sys

TOKEN = r"[^\s(){}\[\],;.\"«»@`]+"
DECLARED = re.compile(rf"^(\s*)(?:(?:pub|abbrev|unfoldable|opaque)\s+)*(?:(?:record|data)\s+)?({TOKEN})(?:\s*[({{].*?)?\s*:(?:\s+(.*)|)$")
SKIPPED = re.compile(r"\s*(--|use |pub use |mod |pub mod |λ|\(|let |module |infix)")
ANSWER = re.compile(r"tie\.(Need-|invariant-|decreases-|ghost-)")
# names that would fall together with another of ours
APART = {
    "bit-xor": "bit_of_xor",
    "digit-of": "digit_found",
    "in-body": "run_in_body",
    "tooWide": "too_wide_refusals",
}


def plain(part):
    return re.fullmatch(r"[\w']+", part) is not None


def snake(name):
    if name in APART:
        return APART[name]
    if "-" not in name and name[0].isupper():
        return name
    parts = name.split("-")
    if any(p == "" for p in parts):
        return name
    turned = [p if p[0].isupper() else re.sub(r"(?<=[a-z0-9])([A-Z])", lambda m: "_" + m[1].lower(), p) for p in parts]
    out = turned[0]
    for before, after in zip(turned, turned[1:]):
        out += ("_" if plain(before) and plain(after) else "-") + after
    return out


def declarations(path):
    """The names that a file declares: (name, whether it answers a name that Rattle made)."""
    for line in path.read_text(encoding="utf8").split("\n"):
        if SKIPPED.match(line):
            continue
        m = DECLARED.match(line)
        if m:
            yield m[2], m[1], bool(m[3] and ANSWER.match(m[3]))


def main(argv):
    check = "--check" in argv
    folders = [a for a in argv if a != "--check"]
    root = pathlib.Path(folders[0] if folders else ".")
    files = [p for p in sorted((root / "crates").rglob("*")) if p.suffix in (".antt", ".rt", ".edit") and "out" not in p.relative_to(root).parts]
    names, fields, answers = set(), set(), collections.defaultdict(set)
    for p in files:
        if p.suffix != ".antt":
            continue
        hand = p.name == "Proof.antt"
        for name, indent, answer in declarations(p):
            if hand and (answer or name.endswith("-spec")):
                answers[p].add(name)
            else:
                names.add(name)
                if indent:
                    fields.add(name)
    table = {n: snake(n) for n in names if snake(n) != n}
    back = collections.defaultdict(set)
    for old, new in table.items():
        back[new].add(old)
    together = {new: olds | ({new} & names) for new, olds in back.items() if len(olds | ({new} & names)) > 1}
    for new, olds in sorted(together.items()):
        print(f"together: {new} <- {' '.join(sorted(olds))}")
    if check:
        for old, new in sorted(table.items()):
            print(f"{old}\t{new}")
    tokens = re.compile(rf"(\.?)({TOKEN})")

    def code(text, left):
        def one(m):
            if m[2] in left or m[2] not in table or (m[1] and m[2] not in fields):
                return m[0]
            return m[1] + table[m[2]]
        return tokens.sub(one, text)

    def said(text):
        """A comment or a page: between backticks, and names that no sentence would have."""
        text = re.sub(r"`[^`\n]+`", lambda m: code(m[0], ()), text)
        return tokens.sub(lambda m: m[1] + table[m[2]] if m[2] in table and re.search(r"[a-z0-9][A-Z]", m[2]) else m[0], text)

    for p in files:
        text = p.read_text(encoding="utf8")
        out = []
        left = answers[p]
        for line in text.split("\n"):
            mark = "//" if p.suffix == ".rt" else "--"
            at = re.search(rf"(^|\s){mark}", line)
            head, tail = (line, "") if not at else (line[: at.start()], line[at.start():])
            if tail:
                tail = said(tail)
                tail = re.sub(rf"^(\s*--   )({TOKEN})", lambda m: m[1] + table.get(m[2], m[2]), tail)
                tail = re.sub(rf"\((\w+(?:/\w+)*\.)({TOKEN})\)", lambda m: f"({m[1]}{table.get(m[2], m[2])})", tail)
            new = code(head, left)
            for old in left:
                if old.endswith("-spec"):
                    new = new.replace(old, re.sub(r"(?<=\w)-(?=\w)", "_", old))
            out.append(new + tail)
        new = "\n".join(out)
        if new != text:
            seen = set(re.findall(TOKEN, text))
            for old, to in table.items():
                if old in seen and to in seen and old != to and old not in left:
                    print(f"beside: {p}: {old} -> {to}, which stands there already")
            if not check:
                p.write_text(new, encoding="utf8")
    if not check:
        for p in sorted(root.glob("*.md")) + sorted((root / "docs").glob("*.md")):
            text = p.read_text(encoding="utf8")
            new = re.sub(r"`[^`\n]+`", lambda m: code(m[0], ()), text)
            if new != text:
                p.write_text(new, encoding="utf8")
    return 0


if __name__ == "__main__":
    sys.exit(main(sys.argv[1:]))
