"""The C host's calls from C: answers and untouched bytes under the sanitizers (host.c), and the stack of every call (stack.c)."""
import subprocess

import machine
from machine import ROOT

CALLS = [
    "muljenta_verdict", "muljenta_inverse", "probe_lift", "probe_verdict", "probe_inverse", "probe_read", "probe_report", "probe_row", "probe_block",
]
WARNINGS = ["-std=gnu11", "-Wall", "-Wextra", "-Werror"]


def told(command):
    """What a command prints; it must end well."""
    done = subprocess.run(command, stdout=subprocess.PIPE, stderr=subprocess.STDOUT, text=True, errors="replace", timeout=600)
    assert done.returncode == 0, f"{command}: {done.returncode}\n{done.stdout}"
    return done.stdout.strip()


def checks(lib):
    def printed(name, options, archives):
        """What a program of this folder prints, compiled with these options."""
        program = lib.folder / name
        told(machine.gcc(*WARNINGS, *options, f"-I{ROOT}/include", "-o", program, f"{ROOT}/tests/{name}.c", *map(machine.archive, archives)))
        return told(machine.run(program))

    def guarded_calls():
        sanitizers = "address,undefined"
        if not machine.IS_X86:
            sanitizers = "undefined"
            machine.not_run("AddressSanitizer in hosts.guarded_calls", "the emulator has no room for its shadow memory; guard pages and UBSan stay")
        return printed("host", [f"-fsanitize={sanitizers}", "-fno-sanitize-recover=all", "-g", "-O1"], ["host"])

    def stack():
        """Bound at the start: the loader's own work on a first call would count as the call's stack."""
        said = printed("stack", ["-O1", "-Wl,-z,now"], ["host", "probe"])
        figures = dict(line.split() for line in said.splitlines())
        assert list(figures) == CALLS and all(0 < int(v) <= 65536 for v in figures.values()), said
        return ", ".join(f"{name} {figure}" for name, figure in figures.items())

    return [guarded_calls, stack]
