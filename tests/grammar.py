"""A reader of sheets from the grammar, token by token, that asks only: can this text still become a sheet?"""
LEGAL = 2**20


def number(token, low, high):
    """The number that the bytes are, written as a sheet writes it and in the range; else None."""
    try:
        text = token.decode("ascii")
        value = int(text)
    except ValueError:
        return None
    return value if str(value) == text and low <= value <= high else None


def can_become(token, low, high):
    """Whether more bytes can make it a number of the range: a longer number has a larger magnitude."""
    return token == b"" or number(token, low, high) is not None or (token == b"-" and low < 0)


def parse(text):
    """('sheet', n, entries), ('beginning',) or ('bad', offset): the first byte after which the text is no beginning of any sheet."""
    at = 0

    def figure(low, high, closing):
        """The number from `at` on, closed by that byte; None where the text ended in it; raises Bad at the first wrong byte."""
        nonlocal at
        start = at
        while True:
            if at == len(text):
                return None
            byte = text[at:at + 1]
            token = text[start:at]
            if byte == closing:
                value = number(token, low, high)
                if value is None:
                    raise Bad(at)
                at += 1
                return value
            if not can_become(token + byte, low, high):
                raise Bad(at)
            at += 1

    try:
        n = figure(1, 32, b"\n")
        if n is None:
            return ("beginning",)
        entries = []
        for i in range(n * n):
            v = figure(-LEGAL, LEGAL, b"\n" if i % n == n - 1 else b" ")
            if v is None:
                return ("beginning",)
            entries.append(v)
        if at < len(text):
            raise Bad(at)
        return ("sheet", n, entries)
    except Bad as bad:
        return ("bad", bad.args[0])


class Bad(Exception):
    pass


def place(text, offset):
    before = text[:offset]
    return before.count(b"\n") + 1, offset - (before.rfind(b"\n") + 1) + 1


def figures(text, found):
    """What the reader answers to a text that parses so: number and values, zeros after them."""
    if found[0] == "sheet":
        return (0, found[1], 0, 0)
    if found[0] == "bad":
        return (9, *place(text, found[1]), 1)
    return (9, *place(text, len(text)), 2)


def written(n, entries):
    rows = [entries[i * n:(i + 1) * n] for i in range(n)]
    return "".join(" ".join(map(str, row)) + "\n" for row in [[n]] + rows).encode()
