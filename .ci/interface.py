"""What a crate shows to the crates above it, as the prover has it there: its public contracts, and the definitions that
these name.

A crate above is proved over the contracts of the crates below it and never over their bodies. So what is left out here
can change below a crate without any effect on what the prover says of it: bodies, private functions, public ones that
the crate above doesn't name, private fields with the views and invariants of their types, a type that neither the crate
above nor anything left names, with its calls, its traits and as what its values are seen, definitions that no contract
left leads to, and comments. A name that a crate gives a type anew as it hands it on (pub use .. as ..) isn't followed; none does. Lemmas that
a crate takes from the proofs below it aren't counted, nor definitions to which these alone lead: where one of them
changes its statement, the proofs above tell.
"""
import functools
import glob
import os
import re

ROOT = os.path.dirname(os.path.dirname(os.path.realpath(__file__)))
SKIPPED = re.compile(r"//[^\n]*|\"(?:\\.|[^\"\\])*\"|'(?:\\.[^']*|[^'\\\n])'", re.S)
CLAUSE = re.compile(r"\b(?:requires|ensures)(?:\s+\w+)?\s*$")
ATTRIBUTES = r"(?:#\s*!?\[[^\]]*\]\s*)*"
FUNCTION = re.compile(ATTRIBUTES + r"(?:pub(?:\([^)]*\))?\s+)?(?:const\s+)?fn\s+(\w+)")
TYPE = re.compile(ATTRIBUTES + r"pub (?:struct|enum) (\w+)")
HIDDEN = re.compile(ATTRIBUTES + r"(?:pub\([^)]*\) )?(?:struct|enum) (\w+)")
DEFINITIONS = re.compile(r"Rattle\.(nc_\w+)\.specs\.(\w+(?:\.\w+)*)")
HANDED_ON = re.compile(ATTRIBUTES + r"pub use (\w+(?:::\w+)*?)::(\w+|\{[^{}]*\})\s*;")
OF = re.compile(r" for (\w+)")
OWN = re.compile(ATTRIBUTES + r"impl\b(?:<[^{]*?>)?\s+(\w+)")
DECLARED = re.compile(r"\bpub (?:struct|enum) \w+|\b(?:pub|ghost) use [^;]*;|\bimpl\b[^;{]*? for \w+")
CONSTANT = re.compile(ATTRIBUTES + r"(?:pub\([^)]*\) )?const (\w+)")
IMPORT = re.compile(r"ghost use Rattle\.nc_\w+\.specs\.[\w.]+?(?:\.\{([^}]*)\}| as (\w+))\s*;")


@functools.cache
def read(file):
    """Returns the text of a file."""
    with open(file, encoding="utf-8") as it:
        return it.read()


def blanked(text):
    """Returns a text of the same length in which comments, and the braces inside strings and characters, are blank.

    >>> blanked('a // {\\nb "{" c')
    'a     \\nb "_" c'
    """
    def blank(found):
        word = found.group()
        return re.sub(r"[^\n]", " ", word) if word.startswith("//") else re.sub(r"[{}();]", "_", word)
    return SKIPPED.sub(blank, text)


def end_of(text, start):
    """Returns where the item ends that starts at a place: behind its body, or behind its semicolon.

    >>> end_of('fn a() ensures x { y } { z } fn b', 0)
    28
    >>> end_of('use a::{b}; use c;', 0)
    11
    """
    depth, since, is_clause = 0, start, False
    for at in range(start, len(text)):
        letter = text[at]
        if letter == "{" and depth == 0:
            is_clause = bool(CLAUSE.search(text[since:at]))
        depth += (letter in "{([") - (letter in "})]")
        if letter == ";" and depth == 0:
            return at + 1
        if letter == "}" and depth == 0:
            since = at + 1
            if not is_clause and not text[since:].lstrip().startswith(";"):
                return since
    return len(text)


def items_of(text):
    """Returns the items of a text that is blanked, one after another.

    >>> items_of('use a; pub fn b() { c } struct D;')
    ['use a;', 'pub fn b() { c }', 'struct D;']
    """
    items, at = [], 0
    while text[at:].strip():
        at += len(text[at:]) - len(text[at:].lstrip())
        end = end_of(text, at)
        items.append(text[at:end])
        at = end
    return items


def body_of(item):
    """Returns where the last block of an item starts, and what is inside it."""
    depth = 0
    for at in range(len(item) - 1, -1, -1):
        depth += (item[at] == "}") - (item[at] == "{")
        if depth == 0 and item[at] == "{":
            return at, item[at + 1:item.rindex("}")]
    return len(item), ""


def fields_of(item):
    """Returns the fields of a struct.

    >>> fields_of('pub struct Pair<T> { pub first: Vec<(T, T)>, second: T, }')
    ['pub first: Vec<(T, T)>', 'second: T']
    >>> fields_of('pub struct Id(pub u32);')
    ['pub u32']
    """
    start = re.search(r"[{(]|$", item).end()
    inside = item[start:max(item.rfind("}"), item.rfind(")"))]
    fields, depth, since = [], 0, 0
    for at, letter in enumerate(inside + ","):
        depth += (letter in "<([{") - (letter in ">)]}")
        if letter == "," and depth == 0:
            fields.append(inside[since:at].strip())
            since = at + 1
    return [it for it in fields if it]


def is_open(item):
    """Whether all that a type has is public: it is an enum, or each field of the struct is.

    >>> is_open('#[derive(Drop)] pub struct Id(pub u32);'), is_open('pub struct Path { count: u16, }')
    (True, False)
    """
    plain = re.sub(ATTRIBUTES, "", item)
    return plain.startswith("pub enum") or all(it.startswith("pub ") for it in fields_of(plain))


def shown_type(item):
    """Returns what is seen of a type: all of it, or where it has a private field no more than its name."""
    return item if is_open(item) else item[:TYPE.match(item).end()]


def is_asked(item, words, before=""):
    """Whether an item isn't a function, or is one whose name stands among some words, with this before it.

    >>> is_asked('pub fn a() { b }', {'a'}), is_asked('pub fn a() { b }', {'b'}), is_asked('pub struct A;', set())
    (True, False, True)
    """
    function = FUNCTION.match(item)
    return not function or before + function.group(1) in words


def shown_impl(item, opened, words):
    """Returns what is seen of an impl: of a trait the signatures and what stands for the prover, else what is public
    and named.

    >>> shown_impl('impl Model for A { ghost Value = { V }; ghost view = { v }; }', set(), {'A'})
    'impl Model for A ghost Value = { V };'
    >>> shown_impl('impl Model for A { ghost Value = { V }; ghost view = { v }; }', set(), {'B'})
    ''
    >>> shown_impl('impl A { fn b(); }', set(), {'A', '.b'}), shown_impl('impl A { pub fn b(); }', set(), {'A', 'b'})
    ('', '')
    >>> shown_impl('impl B for A { fn b(); }', {'A'}, {'A'}), shown_impl('impl B for A { fn b(); }', {'A'}, {'B'})
    ('impl B for A fn b();', '')
    >>> shown_impl("impl<'a> A<'a> { pub fn b(); }", set(), {'A', '.b'}), shown_impl('impl A { pub fn b(); }', set(), {'.b'})
    ("impl<'a> A<'a> pub fn b();", '')
    """
    start, inside = body_of(item)
    head = item[:start]
    rows = [it for it in items_of(inside) if not it.startswith("ghost use")]
    model, of = re.search(r"\bModel for (\w+)", head), OF.search(head)
    if of and of.group(1)[0].isupper() and of.group(1) not in words:
        rows = []
    elif model and model.group(1) not in opened:
        rows = [it for it in rows if it.startswith("ghost Value")]
    elif " for " not in head and OWN.match(head).group(1) not in words:
        rows = []
    elif " for " not in head:
        rows = [it for it in rows if re.match(ATTRIBUTES + r"pub (?!\()", it) and is_asked(it, words, ".")]
    seen = " ".join(it[:body_of(it)[0]] if FUNCTION.match(it) else it for it in rows)
    return head + seen if seen else ""


def shown_item(item, opened, words):
    """Returns what is seen of an item by a crate above that has these words.

    >>> shown_item('pub fn a() ensures { b } { c }', set(), {'a'})
    'pub fn a() ensures { b } '
    >>> shown_item('fn a() { c }', set(), {'a'}), shown_item('pub fn a() ensures { b } { c }', set(), {'b'})
    ('', '')
    >>> shown_item('pub struct A(pub u8);', set(), {'A'}), shown_item('pub struct A(pub u8);', set(), {'B'})
    ('pub struct A(pub u8);', '')
    >>> shown_item('pub use a::{A, b};', set(), {'A'}), shown_item('pub use a::A;', set(), {'b'})
    ('pub use a::{A};', '')
    """
    if TYPE.match(item):
        return shown_type(item) if TYPE.match(item).group(1) in words else ""
    if HANDED_ON.match(item):
        path, names = HANDED_ON.match(item).groups()
        kept = [it for it in re.split(r",\s*", names.strip("{} \n,")) if it in words]
        return f"pub use {path}::{{{', '.join(kept)}}};" if kept else ""
    if re.match(ATTRIBUTES + r"impl\b", item):
        return shown_impl(item, opened, words)
    if FUNCTION.match(item):
        is_shown = re.match(ATTRIBUTES + r"pub (?!\()", item) and is_asked(item, words)
        return item[:body_of(item)[0]] if is_shown else ""
    return item if re.match(ATTRIBUTES + r"(?:pub (?!\()|macro_rules)", item) else ""


def words_in(files):
    """Returns the words of some files of code and of proofs, without comments, those behind a dot or a path with a dot
    before them too."""
    found = set()
    for file in files:
        pattern = r"(?m)^\s*--.*$" if file.endswith(".antt") else SKIPPED
        text = re.sub(pattern, " ", read(file))
        found.update(re.findall(r"\w+", text))
        found.update(f".{word}" for word in re.findall(r"(?:\.|::)\s*(\w+)", text))
    return found


def named_in(seen, imports):
    """Returns the imports of which the shown text has a name."""
    words = set(re.findall(r"[\w◌≡]+", seen))
    found = []
    for line in imports:
        names, alias = IMPORT.match(line).groups()
        if alias in words or any(it in words or "◌" in it for it in re.findall(r"[^\s,]+", names or "")):
            found.append(line)
    return found


def constants_in(name, items, seen):
    """Returns the private constants that the shown text or a definition of the crate names."""
    found = []
    for item in items:
        constant = CONSTANT.match(item)
        if constant and re.search(rf"\b{constant.group(1)}\b", seen + constants_named(name)):
            found.append(" ".join(item.split()))
    return found


@functools.cache
def constants_named(name):
    """Returns the lines by which the definitions of a crate import constants of its code."""
    texts = map(read, sorted(glob.glob(f"{ROOT}/crates/{name}/specs/**/*.antt", recursive=True)))
    return "\n".join(line for text in texts for line in text.split("\n") if "TheConstants" in line)


def without(hidden, items):
    """Returns the items but those of types that only their crate knows.

    >>> without({'A'}, ['struct A;', 'impl Model for A { }', 'pub struct B;', 'impl Model for B { }'])
    ['pub struct B;', 'impl Model for B { }']
    """
    of_hidden = re.compile(ATTRIBUTES + rf"impl\b[^{{]*\bfor (?:{'|'.join(sorted(hidden)) or '!'})\b")
    return [it for it in items if not HIDDEN.match(it) and not of_hidden.match(it)]


def shown_in(name, items, words):
    """Returns what is seen of the items of a file by a crate that has these words, and of its imports what that names."""
    opened = {TYPE.match(it).group(1) for it in items if TYPE.match(it) and is_open(it)}
    seen = " ".join(" ".join(shown_item(it, opened, words) for it in items).split())
    inside = [row for it in items if re.match(ATTRIBUTES + r"impl\b", it) for row in items_of(body_of(it)[1])]
    imports = sorted({" ".join(it.split()) for it in items + inside if IMPORT.match(it)})
    return [seen] * bool(seen) + constants_in(name, items, seen) + named_in(seen, imports)


@functools.cache
def code_of(name):
    """Returns the items of each file of a crate."""
    files = sorted(glob.glob(f"{ROOT}/crates/{name}/src/**/*.rt", recursive=True))
    return {file: items_of(blanked(read(file))) for file in files}


def shown_below(names, words):
    """Returns what is seen of the code of each of some crates by one above all of them that has these words.

    What is seen names types too, beside those that it declares or hands on, and of these it is seen as what their values
    are seen.
    """
    while True:
        texts = [shown(it, words) for it in names]
        more = {word for text in texts for word in re.findall(r"\b[A-Z]\w*", DECLARED.sub("", text))} - words
        if not more:
            return texts
        words = words | more


def shown(name, words):
    """Returns what is seen of the code of a crate by one above that has these words."""
    code = code_of(name)
    hidden = {HIDDEN.match(it).group(1) for items in code.values() for it in items if HIDDEN.match(it)}
    parts = []
    for file, items in code.items():
        rows = shown_in(name, without(hidden, items), words)
        parts += [os.path.relpath(file, ROOT), *rows] if rows else []
    return "\n".join(parts)


@functools.cache
def definitions_in(text):
    """Returns the files of definitions that a text imports."""
    found = set()
    for crate, path in DEFINITIONS.findall(text):
        words = path.split(".")
        for count in range(len(words), 0, -1):
            file = f"{ROOT}/crates/{crate}/specs/{'/'.join(words[:count])}.antt"
            if os.path.isfile(file):
                found.add(file)
                break
    return frozenset(found)


def reached(texts):
    """Returns the files of definitions that texts import, with those that these stand on."""
    left, found = [file for it in texts for file in definitions_in(it)], set()
    while left:
        file = left.pop()
        if file not in found:
            found.add(file)
            left += definitions_in(read(file))
    return sorted(found)
