"""The reports on the marks of lines, in all their forms."""
import json

LETTERS = (b"S", b"W", b"U", b".")


def counts(sheets):
    """How many lines are strong, weak, uncovered and outside."""
    return [sum(sheet.count(letter) for sheet in sheets) for letter in LETTERS]


def report(names, sheets):
    head = b"strong %d weak %d uncovered %d outside %d\n" % tuple(counts(sheets))
    return head + b"".join(name + b" " + sheet + b"\n" for name, sheet in zip(names, sheets))


def show(sheet, lines):
    return b"".join(b"%c %d " % (mark, n + 1) + line + b"\n" for n, (mark, line) in enumerate(zip(sheet, lines)))


def section(sheet, file):
    """A file's part of a tracefile."""
    read = [(n + 1, int(mark in b"SW")) for n, mark in enumerate(sheet) if mark not in b"."]
    lines = b"".join(b"DA:%d,%d\n" % one for one in read)
    ends = b"LF:%d\nLH:%d\nend_of_record\n" % (len(read), sum(hit for _, hit in read))
    return b"TN:\nSF:" + file + b"\n" + lines + ends


def lcov(sheets, files):
    return b"".join(section(sheet, file) for sheet, file in zip(sheets, files))


def as_json(names, sheets):
    routers = [{"marks": sheet.decode(), "name": name.decode("latin-1")} for name, sheet in zip(names, sheets)]
    strong, weak, uncovered, outside = counts(sheets)
    all_of = {"outside": outside, "routers": routers, "strong": strong, "uncovered": uncovered, "weak": weak}
    return json.dumps(all_of, separators=(",", ":"), sort_keys=True).encode() + b"\n"
