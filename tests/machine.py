"""The machine that the tests run on. Rattle compiles for x86-64; .ci/x86 says how C is compiled for it and its programs are run here."""
import pathlib
import platform

ROOT = pathlib.Path(__file__).resolve().parent.parent
X86 = ["bash", f"{ROOT}/.ci/x86"]
IS_X86 = platform.machine() == "x86_64"


def gcc(*words):
    """The command that compiles C for x86-64."""
    return [*X86, "gcc", *map(str, words)]


def run(program):
    """The command that runs a program compiled for x86-64."""
    return [*X86, "run", str(program)]


def program(name):
    """What `rt run` builds in a crate's folder."""
    return f"{ROOT}/crates/{name}/out/{name}"


def archive(name):
    """What `rt lib` builds in a static library's folder."""
    return f"{ROOT}/crates/{name}/out/lib{name}.a"


def not_run(what, why):
    """Says what only an x86-64 machine can do; it counts neither as passed nor as failed."""
    print(f"not run on {platform.machine()}: {what}: {why}", flush=True)
