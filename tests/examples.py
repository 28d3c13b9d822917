"""The examples: each sheet through the program certify, each host built and run."""
import subprocess
import sys

import exact
import families
import machine
from machine import ROOT

ARCHIVE = machine.archive("host")

SHEETS = {  # what document 01 says of them
    "good.sheet": "0 3 25 1\n1 -262144 137438953472\n0 1 -524288\n0 0 1\n",
    "refused.sheet": "9 3 4 1\n",
    "three.sheet": "7 3 25 1\n",
}
HOSTS = "0 1 -1 -1 2\n7\n"


def told(command, text=None):
    """What a command prints, run in the repository; it must end well."""
    return subprocess.run(command, input=text, check=True, capture_output=True, cwd=ROOT).stdout.decode()


def checks(lib):
    def sheets():
        for name, expected in SHEETS.items():
            assert told(machine.run(machine.program("certify")), text=(ROOT / "examples" / name).read_bytes()) == expected, name
        return f"{len(SHEETS)} sheets"

    def a_determinant_of_3_that_floats_call_1():
        rows = (ROOT / "examples/three.sheet").read_text().splitlines()[1:]
        table = [list(map(int, row.split())) for row in rows]
        a, b, c = table
        cross = [b[1] * c[2] - b[2] * c[1], b[2] * c[0] - b[0] * c[2], b[0] * c[1] - b[1] * c[0]]
        assert sum(x * y for x, y in zip(a, cross)) == 3
        assert round(families.float_determinant(table)) == 1
        assert exact.verdict(table)[0] == 7
        return f"float64 says {families.float_determinant(table):.3f}"

    def host_in_c():
        if not machine.IS_X86:
            machine.not_run("examples/host.py, examples/host.rs", "they need a Python and a Rust library for x86-64, which Debian's packages for this machine do not have")
        program = lib.folder / "host_c"
        told(machine.gcc("-Wall", "-Wextra", "-Werror", "-Iinclude", "examples/host.c", ARCHIVE, "-o", program))
        assert told(machine.run(program)) == HOSTS
        return "examples/host.c"

    def host_in_python():
        library = f"{lib.folder}/libhost.so"
        told(machine.gcc("-shared", "-o", library, "-Wl,--whole-archive", ARCHIVE, "-Wl,--no-whole-archive"))
        assert told([sys.executable, "examples/host.py", library]) == HOSTS
        return "examples/host.py"

    def host_in_rust():
        program = f"{lib.folder}/host_rs"
        told(["rustc", "--edition", "2021", "-o", program, "examples/host.rs", "-C", f"link-arg={ARCHIVE}"])
        assert told([program]) == HOSTS
        return "examples/host.rs"

    return [sheets, a_determinant_of_3_that_floats_call_1, host_in_c, *([host_in_python, host_in_rust] if machine.IS_X86 else [])]
