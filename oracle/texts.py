"""Lines, words, numbers, addresses and prefixes."""


def lines_of(data):
    """The lines, each without its line feed and one carriage return before it."""
    parts = data.split(b"\n")
    if parts[-1] == b"":
        parts.pop()
    return [x[:-1] if x[-1:] == b"\r" else x for x in parts]


def words(line):
    return [w for w in line.replace(b"\t", b" ").split(b" ") if w != b""]


def digits(w):
    """The value of a number, or None."""
    if w == b"" or any(c not in b"0123456789" for c in w) or (len(w) > 1 and w[:1] == b"0"):
        return None
    return w


def number(w, low, high):
    if digits(w) is None or len(w) > 12:
        return None
    n = int(w)
    return n if low <= n <= high else None


def address(w):
    parts = w.split(b".")
    if len(parts) != 4:
        return None
    value = 0
    for p in parts:
        n = number(p, 0, 255)
        if n is None:
            return None
        value = value * 256 + n
    return value


BITS = [sum(1 << (31 - k) for k in range(length)) for length in range(33)]


def bits(length):
    return BITS[length]


def mask(w):
    a = address(w)
    for length in range(33):
        if a == bits(length):
            return length
    return None


def large(w):
    """A number below 2^32, or None."""
    return number(w, 0, 4294967295)


def covers(prefix, a):
    return a & bits(prefix[1]) == prefix[0]


def inside(p, outer):
    return outer[1] <= p[1] and covers(outer, p[0])


def prefix_of(a, m):
    """P M of two words, or None."""
    a, m = address(a), mask(m)
    if a is None or m is None or a & ~bits(m):
        return None
    return (a, m)


def starts(w, text):
    f = text.encode().split()
    return w[: len(f)] == f


def prefix_word(w):
    """A/L of one word, or None."""
    if w.count(b"/") != 1:
        return None
    a, length = w.split(b"/")
    a, length = address(a), number(length, 0, 32)
    return None if a is None or length is None or a & ~bits(length) else (a, length)
