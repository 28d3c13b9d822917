"""The program certify itself: what it prints for an input, however the input comes."""
import os
import random
import subprocess
import time

import grammar
import machine
import texts

CERTIFY = machine.run(machine.program("certify"))
SEED, COUNT = 20261118, 400
EMPTY = b"9 1 1 2\n"


def printed(**how):
    done = subprocess.run(CERTIFY, capture_output=True, timeout=60, **how)
    assert done.returncode == 0 and done.stderr == b"", done
    return done.stdout


def checks(lib):
    def expected(text):
        return texts.report(text, grammar.parse(text))

    def every_text():
        rng = random.Random(SEED)
        for _ in range(COUNT):
            text = texts.sheet(rng)
            for _ in range(rng.randrange(3)):
                text = texts.damaged(rng, text)
            assert printed(input=text) == expected(text), text[:200]
        return f"seed {SEED}, {COUNT} texts"

    def an_input_in_pieces():
        """Short reads are continued. The pauses are longer than a start under the emulator, so that every piece is a read of its own."""
        rng = random.Random(SEED)
        for text in (texts.THIN, grammar.written(32, [rng.randrange(-9, 10) for _ in range(1024)])):
            with subprocess.Popen(CERTIFY, stdin=subprocess.PIPE, stdout=subprocess.PIPE) as program:
                for at in range(0, len(text), 1 + len(text) // 6):
                    program.stdin.write(text[at:at + 1 + len(text) // 6])
                    program.stdin.flush()
                    time.sleep(0.1)
                program.stdin.close()
                assert program.stdout.read() == expected(text)
        return "2 texts in 6 pieces"

    def no_input():
        """A read error counts as the end."""
        folder = os.open("/", os.O_RDONLY)
        assert printed(stdin=subprocess.DEVNULL) == EMPTY and printed(stdin=folder) == EMPTY
        os.close(folder)
        closed = subprocess.run(["sh", "-c", 'exec "$@" <&-', "sh", *CERTIFY], capture_output=True, check=True)
        assert closed.stdout == EMPTY
        return "empty, a folder, closed"

    return [every_text, an_input_in_pieces, no_input]
