"""The child process that calls the library (driver.c): one driver answers call after call, and after a crash a fresh one is started."""
import signal
import struct
import subprocess

import machine

BUFFERS = 3


class Driver:
    def __init__(self, program):
        self.program, self.child = program, None

    def call(self, name, numbers, lent, *written):
        """The call's number and its written buffers as they are left; the buffer lent for reading must come back as it was."""
        buffers = [lent, *written]
        lengths = [len(b) for b in buffers]
        head = struct.pack("<24s3Q3Q", name.encode(), *pad(numbers), *pad(lengths))
        answer = self.exchange(b"".join([head, *buffers]), 8 + sum(lengths))
        if answer is None:
            raise AssertionError(f"{name}{tuple(numbers)} on buffers of {lengths} bytes: {self.end()}")
        after, at = [], 8
        for length in lengths:
            after.append(answer[at:at + length])
            at += length
        assert after[0] == lent, f"{name}{tuple(numbers)} on buffers of {lengths} bytes: the buffer lent for reading was changed"
        return struct.unpack_from("<Q", answer)[0], *after[1:]

    def exchange(self, request, size):
        """The answer of `size` bytes, or None where the driver ends first."""
        if self.child is None:
            pipe = subprocess.PIPE
            self.child = subprocess.Popen(machine.run(self.program), stdin=pipe, stdout=pipe, stderr=pipe)
        try:
            self.child.stdin.write(request)
            self.child.stdin.flush()
        except BrokenPipeError:
            return None
        answer = self.child.stdout.read(size)
        return answer if len(answer) == size else None

    def end(self):
        """How the driver ended."""
        child, self.child = self.child, None
        said = child.stderr.read().decode(errors="replace").strip()
        status = child.wait()
        how = signal.Signals(-status).name if status < 0 else f"status {status}"
        return f"the driver ended by {how} {said}".strip()


def pad(values):
    return [*values, *[0] * (BUFFERS - len(values))]
