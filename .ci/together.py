"""Tries edits that must fail several at a time: each in the body of a function of its own, in one check of these functions.

The proof of a function sees the contracts of the functions that it calls and never their bodies, so edits of different
bodies don't meddle with one another. An edit counts as refused where the check says of the very function whose body it
changes that it isn't proved. Of a function that is right and calls one that isn't proved, a check says that: an edit
there is tried again without the ones that were refused. An edit of a constant gets a check for itself, of the functions
that name it, and one of anything else a check of the whole crate.

The libraries below a crate are those that the gate's rt ci built in place. They are taken only where `note_libraries`
noted behind that run the text of which it proved them and the crate itself, and this is the text that stands.
"""
import hashlib
import os
import re
import shutil
import subprocess
import tempfile
import typing

KIT = os.path.dirname(os.path.dirname(os.path.realpath(shutil.which("rt") or "/usr/local/bin/rt")))
PARTS = ("src", "specs", "proofs")
FUNCTION = re.compile(r"( *)(?:pub(?:\([^)]*\))? )?(?:const )?(?:unsafe )?fn (\w+)")
BLOCK = re.compile(r"impl(?:<.*?>)? (?:(?:\w+::)*(\w+)(?:<(?:\w+::)*(\w+).*>)? for )?(?:\w+::)*(\w+)")
SAID = re.compile(r"^fn (\S+): (.*)$", re.M)
NOT_PROVED = re.compile(r"^logic=not-proved[^\n]*\s*\Z", re.M)
UNKNOWN = re.compile(r"has no function `([^`]+)`")
CONSTANT = re.compile(r"\s*(?:pub(?:\([^)]*\))? )?const (\w+)")


class Change(typing.NamedTuple):
    """One line of a file of a crate in place of another."""

    path: str
    old: str
    new: str


class Edit(typing.NamedTuple):
    """An edit, and the functions whose bodies it changes, each by the end of its name in a check."""

    file: str
    changes: tuple
    functions: frozenset


def changes_of(text):
    """Returns the changes of an edit.

    >>> changes_of("file: src/a.rt\\nold: one\\nnew: two\\nold: three\\nnew:\\n")
    (Change(path='src/a.rt', old='one', new='two'), Change(path='src/a.rt', old='three', new=''))
    """
    path, old, found = "", "", []
    for line in text.split("\n"):
        if line.startswith("file: "):
            path = line.removeprefix("file: ").strip()
        elif line.startswith("old: "):
            old = line.removeprefix("old: ")
        elif line.startswith("new:"):
            found.append(Change(path, old, line.removeprefix("new:").removeprefix(" ")))
    return tuple(found)


def module_of(path):
    """Returns the module of a file, with the colons behind it.

    >>> module_of("src/lib.rt"), module_of("src/walk.rt"), module_of("src/a/b.rt")
    ('', 'walk::', 'a::b::')
    """
    inside = path.removeprefix("src/").removesuffix(".rt")
    return "" if inside in ("lib", "main") else inside.replace("/", "::") + "::"


def owner_of(block, path):
    """Returns what stands before the name of a function in a check: its type, its type and trait, or its module.

    >>> owner_of("impl<T> Lists<T> {", "src/lists.rt"), owner_of("impl Ord for Addr {", "src/addr.rt")
    ('Lists::', 'AddrOrd::')
    >>> owner_of("impl From<AllocError> for Stop {", "src/reading.rt"), owner_of("", "src/walk.rt")
    ('StopFromAllocError::', 'walk::')
    """
    named = BLOCK.match(block)
    return f"{named[3]}{named[1] or ''}{named[2] or ''}::" if named else module_of(path)


def function_at(text, path, at):
    """Returns the function in whose body a place of a file lies, by the end of its name in a check; None elsewhere.

    >>> text = "const ONE: u8 = 1;\\nfn a()\\n    requires { x }\\n{\\n    b();\\n}\\nimpl T {\\n    fn c() {\\n        d();\\n    }\\n}\\n"
    >>> [function_at(text, "src/m.rt", text.index(it)) for it in ("ONE", "requires", "b()", "d()")]
    [None, None, 'm::a', 'T::c']
    """
    block, name, indent, in_body, begun = "", None, "", False, False
    for line in text[: text.index("\n", at)].split("\n"):
        head = FUNCTION.match(line)
        if line.startswith("impl"):
            block, name = line, None
        elif line == "}":
            block, name, in_body = "", None, False
        elif head:
            name, indent, in_body = head[2], head[1], line.endswith("{")
            begun = True
        elif name and not in_body:
            in_body = line == indent + "{" or line.startswith(f"{indent})") and line.endswith("{")
            begun = True
        elif name and line == indent + "}":
            name, in_body = None, False
        else:
            begun = False
    return owner_of(block, path) + name if name and in_body and not begun else None


def edit_of(file, folder):
    """Returns an edit of a crate, without functions where some change lies in no body."""
    with open(file, encoding="utf-8") as it:
        changes = changes_of(it.read())
    functions = set()
    for change in changes:
        with open(f"{folder}/{change.path}", encoding="utf-8") as it:
            text = it.read()
        if not change.path.startswith("src/") or text.count(change.old) != 1:
            return Edit(file, changes, frozenset())
        functions.add(function_at(text, change.path, text.index(change.old)))
    return Edit(file, changes, frozenset() if None in functions else frozenset(functions))


def naming(folder, edit):
    """Returns the functions of a crate that name the constant which an edit changes; none where it changes something else."""
    named = CONSTANT.match(edit.changes[0].old)
    if not named or len(edit.changes) != 1:
        return frozenset()
    functions = set()
    for at, _, names in os.walk(f"{folder}/src"):
        for path in sorted(f"{at}/{it}" for it in names):
            with open(path, encoding="utf-8") as it:
                text = it.read()
            inside = os.path.relpath(path, folder)
            functions |= {function_at(text, inside, it.start()) for it in re.finditer(rf"\b{named[1]}\b", text)}
    return frozenset(functions - {None})


def in_turns(edits):
    """Returns lists of edits of which none changes what another of its list changes.

    >>> one, two, three = (Edit(it, (), frozenset(it)) for it in ("ab", "bc", "d"))
    >>> [[it.file for it in turn] for turn in in_turns([one, two, three])]
    [['ab', 'd'], ['bc']]
    """
    turns = []
    for edit in edits:
        free = next((it for it in turns if not any(edit.functions & other.functions for other in it)), None)
        if free is None:
            turns.append([edit])
        else:
            free.append(edit)
    return turns


def is_refused(function, said):
    """Returns whether a check says of a function that it isn't proved, for what is in it.

    >>> said = "fn c::m::a: not proved\\nfn c::m::b: no proof: it calls `m::a`, which is not proved\\nfn c::T::d: proved\\n"
    >>> [is_refused(it, said) for it in ("m::a", "m::b", "T::d")]
    [True, False, False]
    """
    told = [how for name, how in SAID.findall(said) if f"::{name}".endswith(f"::{function}")]
    return len(told) == 1 and told[0].startswith(("not proved", "no proof")) and not told[0].startswith("no proof: it calls")


def words_of(root, name, below, uses):
    """Returns the words by which rattle checks a crate over the libraries that were built in place."""
    folder = f"{root}/crates/{name}"
    library = lambda it: f"{root}/crates/{it}/out/rlib/{it}.rlib"
    start = "src/main.rt" if os.path.isfile(f"{folder}/src/main.rt") else "src/lib.rt"
    words = [f"{KIT}/bin/rattle", "check", "--crate-name", name, start]
    for it in ["std", *uses]:
        words += ["--extern", f"{it}={library(it) if it in below else f'{KIT}/rlibs/{it}.rlib'}"]
    words += ["-L", f"dependency={KIT}/rlibs"]
    for it in below:
        words += ["-L", f"dependency={os.path.dirname(library(it))}"]
    words += ["--antt-project", f"{KIT}/rattle/logic/antt-project.json", "--logic-built", f"{KIT}/logic_built"]
    return [*words, "--jobs", "1"]


def check(folder, edits, words):
    """Returns what a check of the changed functions says, of a copy of the crate with these edits."""
    with tempfile.TemporaryDirectory(prefix="together-") as room:
        for part in PARTS:
            if os.path.isdir(f"{folder}/{part}"):
                shutil.copytree(f"{folder}/{part}", f"{room}/{part}")
        for change in (it for edit in edits for it in edit.changes):
            with open(f"{room}/{change.path}", encoding="utf-8") as it:
                text = it.read()
            with open(f"{room}/{change.path}", "w", encoding="utf-8") as it:
                it.write(text.replace(change.old, change.new, 1))
        for function in sorted(set().union(*(it.functions for it in edits))):
            words = [*words, "--only", function]
        how = {"cwd": room, "stdin": subprocess.DEVNULL, "stdout": subprocess.PIPE, "stderr": subprocess.STDOUT}
        return subprocess.run(words, errors="replace", check=False, **how).stdout


def refused(root, name, files, below, uses):
    """Returns which of some edits of a crate are refused, each with the function of which that was said."""
    folder, found = f"{root}/crates/{name}", {}
    edits = [edit_of(file, folder) for file in files]
    for edit in (it for it in edits if not it.functions):
        alone = edit._replace(functions=naming(folder, edit))
        said = check(folder, [alone], words_of(root, name, below, uses))
        function = next((it for it in sorted(alone.functions) if is_refused(it, said)), None)
        if function or NOT_PROVED.search(said):
            found[edit.file] = function or "the crate"
    left = [it for it in edits if it.functions]
    again = True
    while left and again:
        again = False
        for turn in in_turns(left):
            said = check(folder, turn, words_of(root, name, below, uses))
            # a function that the check doesn't know by this name: its edit is tried apart, and the others once more
            unknown = UNKNOWN.search(said)
            if unknown:
                known = [it for it in left if unknown[1] not in it.functions]
                left, again = known, len(known) < len(left)
                break
            for edit in turn:
                function = next((it for it in sorted(edit.functions) if is_refused(it, said)), None)
                if function:
                    found[edit.file] = function
                    again = True
        left = [it for it in left if it.file not in found]
    return found


def text_of(root, name, below):
    """Returns the checksum of the text of a crate and of those below it."""
    made = hashlib.sha256()
    for crate in sorted({name, *below}):
        for part in PARTS:
            files = [f"{at}/{it}" for at, _, names in os.walk(f"{root}/crates/{crate}/{part}") for it in names]
            for file in sorted(files):
                with open(file, "rb") as it:
                    made.update(f"{os.path.relpath(file, root)}\n".encode() + it.read())
    return made.hexdigest()


def note_of(root, name):
    """Returns the file that says of which text a crate was proved and its library built in place."""
    return f"{root}/crates/{name}/out/text"


def note_libraries(root, crates):
    """Notes the text of all crates, each with those below it, behind a run that proved them in place."""
    for name, below in crates.items():
        os.makedirs(os.path.dirname(note_of(root, name)), exist_ok=True)
        with open(note_of(root, name), "w", encoding="utf-8") as it:
            it.write(text_of(root, name, below))


def is_proved(root, name, below):
    """Returns whether a crate was proved in place with the text that stands."""
    if not os.path.isfile(note_of(root, name)):
        return False
    with open(note_of(root, name), encoding="utf-8") as it:
        return it.read() == text_of(root, name, below)


def has_libraries(root, crates, name):
    """Returns whether a crate and all below it were proved in place with the text that stands, and their libraries are there."""
    built = all(os.path.isdir(f"{root}/crates/{it}/out/rlib/{it}.rlib") for it in crates[name])
    return built and all(is_proved(root, it, crates[it]) for it in [name, *crates[name]])
