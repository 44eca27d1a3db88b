"""Reading of sessions, files and saved tables as text, for the scripts of this folder."""
import codecs
import os
import sys

MARKS = (
    (codecs.BOM_UTF8, "utf-8-sig", "begins with a byte order mark"),
    (codecs.BOM_UTF16_LE, "utf-16", "is in UTF-16"),
    (codecs.BOM_UTF16_BE, "utf-16", "is in UTF-16"),
)


def encoding_of(data):
    """(the encoding, what is to be said of it), or None for plain bytes."""
    for mark, encoding, what in MARKS:
        if data.startswith(mark):
            return encoding, what
    if b"\0" in data[:4]:
        return ("utf-16-be" if data[:1] == b"\0" else "utf-16-le"), "is in UTF-16"
    return None


def lines_of(data):
    """The lines of plain bytes, without carriage returns at their ends."""
    text = data.decode(errors="surrogateescape")
    lines = text.split("\n")
    return [line.removesuffix("\r") for line in (lines[:-1] if lines[-1] == "" else lines)]


def session_lines(data, name):
    """The lines of a session. One that NetCov would read otherwise than it looks ends the script, with status 2."""
    found = encoding_of(data)
    if found:
        print(f"{name} {found[1]}, which NetCov doesn't read: examples/ways/plain-text < IT > SESSION makes it plain", file=sys.stderr)
        sys.exit(2)
    return lines_of(data)


def session_on_input():
    """The lines of the session on the standard input."""
    return session_lines(sys.stdin.buffer.read(), "the session")


def ended(main):
    """Runs a script and ends with its status. A reader that stops early, such as `head`, is no fault of the script."""
    try:
        status = main()
        sys.stdout.flush()
    except BrokenPipeError:
        os.dup2(os.open(os.devnull, os.O_WRONLY), sys.stdout.fileno())
        status = 1
    sys.exit(status)
