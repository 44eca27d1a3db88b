"""Cases of route maps, prefix lists and community lists alone: their words one by one, their borders, and random ones."""
from pieces import LISTS, MAPS, R, Case, b, clause_block, community_statement, entry_statement, mutate_words, set_statement, write_words

ASK = b"rib r1 10.0.0.0/24\n"
HEAD = ["hostname r1", "interface E", " ip address 10.0.0.1 255.255.255.0"]
DEFINED = ["ip prefix-list A seq 5 permit 10.0.0.0/8", "ip prefix-list B deny 0.0.0.0/0 le 32", "ip community-list standard C permit 1:1", "ip community-list 5 deny 2:2"]
ODD_NUMBERS = ["0", "1", "00", "01", "+1", "-1", "1.0", "x", "65535", "65536", "4294967294", "4294967295", "4294967296", "18446744073709551617", "1_0", "0x1", "1e1", "\u0661"]
ODD_COMMUNITIES = ["0:0", "0:1", "65535:65535", "65536:0", "0:65536", "65536:1", "1:65536", "01:1", "1:01", "00:0", "1:", ":1", ":", "1:1:1", "1::1", "+1:1", "1:-1",
                   "0", "00", "5", "05", "65536", "4294967295", "4294967296", "99999999999999999999", "1.1", "1,1", "internet", "no-export", "no-advertise", "local-AS",
                   "none", "additive", "exact-match", "gshut", "x", "1:x", "x:1", "A", "4294967297:1", "1:18446744073709551617", "\u0661:1"]
ODD_NAMES = ["0", "1", "9", "10", "98", "99", "100", "199", "500", "05", "099", "+5", "5x", "1:1", "standard", "expanded", "extended", "permit", "deny", "seq", "description",
             "sequence-number", "ge", "le", "additive", "exact-match", "prefix-list", "community", "10.0.0.0/8", "!", "!x", "^C", "#", "\x00", "\x0b", "\x7f", "x" * 300, "A", "a"]
TOP = DEFINED + ["route-map M permit 10", "route-map M deny 65535", "ip prefix-list A seq 4294967294 deny 10.9.1.7/16 ge 17 le 24", "ip prefix-list A permit 10.0.0.0/8 ge 8",
                 "ip prefix-list A description some text", "ip prefix-list sequence-number", "ip community-list standard C permit 1:1 0 4294967295 2:2",
                 "ip community-list 99 deny 1:1 1:1", "ip community-list standard 5 permit 1:1", "ip community-list expanded C permit 1:1", "ip community-list 100 permit 1:1",
                 "ip community-list 5 remark some text"]
INNER = ["match ip address prefix-list A", "match ip address prefix-list A B A", "match community C", "match community 5 C 5", "match community C exact-match",
         "match ip address 5", "match as-path 1", "match metric 5", "match", "set local-preference 200", "set metric 0", "set origin igp", "set origin incomplete", "set origin egp 5",
         "set as-path prepend 1", "set as-path prepend 65001 65001 65002", "set as-path prepend last-as 2", "set as-path tag", "set community 1:1", "set community 1:1 5 2:2 additive",
         "set community none", "set comm-list C delete", "set weight 5", "set", "continue", "continue 20"]


def one(*lines):
    return Case({b"r1.cfg": b("\n".join(HEAD + list(lines)) + "\n")}, [b"r1.cfg"], ASK)


def with_clause(*statements):
    """A clause with these statements, and then a last one that shows whether the clause goes on."""
    return one(*DEFINED, "route-map M permit 10", *[" " + text for text in statements], " set metric 7")


def changed(text, others):
    """The statement with each word left out, each end cut, and each of the other words put in, put over one, and put behind."""
    ws = text.split(" ")
    yield text
    for k in range(len(ws) + 1):
        yield " ".join(ws[:k] + ws[k + 1:])
        yield " ".join(ws[:k])
        for other in others:
            yield " ".join(ws[:k] + [other] + ws[k:])
            yield " ".join(ws[:k] + [other] + ws[k + 1:])


def word_cases():
    others = ["x", "0", "5", "05", "permit", "deny", "seq", "ge", "le", "10.0.0.0/8", "1:1", "additive", "exact-match", "standard", "description", "prefix-list", "65536"]
    for statements, put in ((TOP, lambda text: one(*DEFINED, text, " set metric 7")), (INNER, with_clause)):
        for text in dict.fromkeys(new for old in statements for new in changed(old, others)):
            yield put(text)


def number_cases():
    """Numbers at their borders, wherever a number stands; odd words of communities, and odd names."""
    for n in ODD_NUMBERS + [""]:
        yield one(f"route-map M permit {n}", " set metric 7")
        yield one(f"ip prefix-list A seq {n} permit 10.0.0.0/8")
        for field in ("local-preference", "metric", "as-path prepend", "as-path prepend 1"):
            yield with_clause(f"set {field} {n}")
            yield with_clause(f"set {field} {n} 1")
    for c in ODD_COMMUNITIES:
        for text in (f"ip community-list standard C permit {c}", f"ip community-list 5 deny 1:1 {c} 2:2", f"ip community-list {c} permit 1:1", f"ip community-list standard {c} permit 1:1"):
            yield one(text)
        for text in (f"set community {c}", f"set community 1:1 {c}", f"set community {c} 1:1", f"set community {c} additive", f"match community C {c}"):
            yield with_clause(text)
    for name in ODD_NAMES:
        yield one(f"ip prefix-list {name} permit 10.0.0.0/8", "route-map M permit 10", f" match ip address prefix-list {name}")
        yield one(f"ip prefix-list {name} seq 5 permit 10.0.0.0/8", f"ip prefix-list {name} description x", f"ip prefix-list {name}")
        for kind in ("standard ", ""):
            yield one(f"ip community-list {kind}{name} permit 1:1", "route-map M permit 10", f" match community {name}")
        yield one(f"route-map {name} permit 10", " set metric 7", f"route-map {name} deny 10", " set metric 8")


def length_cases():
    lengths = [None, 0, 1, 7, 8, 9, 24, 31, 32, 33]
    for length in (0, 1, 8, 24, 31, 32, 33):
        for low in lengths:
            for high in lengths:
                bounds = ("" if low is None else f" ge {low}") + ("" if high is None else f" le {high}")
                yield one(f"ip prefix-list A permit 0.0.0.0/{length}{bounds}")
    for rest in ("ge", "le", "ge le 24", "le 24 ge 16", "ge 16 ge 24", "le 24 le 24", "ge 016", "le 024", "ge 16 le 24 x", "ge x", "le x", "ge 16 le x", "GE 16", "eq 16", "ge 9 permit"):
        yield one(f"ip prefix-list A permit 10.0.0.0/8 {rest}")
    for prefix in ("10.0.0.1/8", "10.0.0.0", "10.0.0.0/", "/8", "10.0.0.0/08", "10.0.0.0/8/8", "10.0.0/8", "10.0.0.256/8", "10.0.0.0/33", "10.0.0.0/-1", "10.0.0.0 255.0.0.0",
                   "255.255.255.255/0", "any", "10.0.0.0/4294967304", "010.0.0.0/8", "10.0.0.0/8 x"):
        yield one(f"ip prefix-list A permit {prefix}", f"ip prefix-list A deny {prefix}")


def seq_cases():
    """Numbers that are counted on, past the greatest too, in lists that stand among each other; entries that are replaced."""
    for top in (4294967279, 4294967284, 4294967285, 4294967288, 4294967289, 4294967290, 4294967293, 4294967294):
        for counted in (1, 2, 3):
            yield one(f"ip prefix-list A seq {top} permit 10.0.0.0/8", "ip prefix-list A seq 3 permit 10.0.0.0/8", *["ip prefix-list A deny 10.9.0.0/16"] * counted)
            yield one("ip prefix-list B permit 0.0.0.0/0", f"ip prefix-list A seq {top} permit 10.0.0.0/8", *["ip prefix-list B permit 0.0.0.0/0", "ip prefix-list A deny 10.9.0.0/16"] * counted)
    entry = lambda seq, what="permit", name="A": f"ip prefix-list {name} {seq}{what} 10.0.0.0/8"
    seqs = ["", "", "seq 5 ", "seq 5 ", "seq 4 ", "seq 10 ", "seq 10 ", "seq 4294967294 ", "seq 6 ", "seq 1 ", ""]
    for first in range(len(seqs)):
        for second in range(first, len(seqs)):
            texts = [entry(seqs[first]), entry(seqs[second], "deny"), entry(""), entry("", "deny", "B"), entry(seqs[first], "permit", "B")]
            yield one(*texts)
            yield one(*reversed(texts))
    yield one(*[entry("")] * 300)


def many(count, first=1):
    return " ".join(f"{k // 200}:{k % 200}" for k in range(first, first + count))


def count_cases():
    """Numbers to prepend up to and past ten, communities up to and past 64, distinct or not."""
    for n in (0, 1, 2, 9, 10, 11, 12, 64, 65, 300):
        yield with_clause("set as-path prepend " + " ".join("65001" for _ in range(n)))
        yield with_clause("set as-path prepend " + " ".join(["65001"] * n + ["0"]))
    for n in (1, 2, 62, 63, 64, 65, 66, 128, 1000):
        for extra in ("", " 0:1", " 1", " 0:2 2", " 7:7", " x", " internet", " 65536:1", " " + many(n)):
            yield one(f"ip community-list standard C permit {many(n)}{extra}")
            yield one(f"ip community-list 5 deny{extra} {many(n)}")
            for behind in ("", " additive", " additive additive", " additive 1:1", " exact-match"):
                yield with_clause(f"set community {many(n)}{extra}{behind}")
        yield with_clause("match community " + " ".join(["C"] * n))
        yield with_clause("match community " + " ".join(["C"] * n + ["exact-match"] + ["C"] * n))
        yield with_clause("match ip address prefix-list " + " ".join(["A", "B"] * n))


def reference_cases():
    """Lists that are named and defined or not, of each kind, in each order."""
    defined = {"prefix": "ip prefix-list {} permit 10.0.0.0/8", "community": "ip community-list standard {} permit 1:1", "map": "route-map {} deny 5",
               "interface": "interface {}", "outside": "ip community-list expanded {} permit 1:1", "described": "ip prefix-list {} description x", "none": "!"}
    named = {"prefix": "match ip address prefix-list {}", "community": "match community {}"}
    for kind, text in named.items():
        for other, line in defined.items():
            for name in ("X", "7", "100", "seq"):
                header = f"route-map {name if other == 'map' else 'M'} permit 10"
                yield one(line.format(name), header, " " + text.format(name))
                yield one(header, " " + text.format(name), "!", line.format(name))
                yield one(*DEFINED, header, " " + text.format(f"{'A' if kind == 'prefix' else 'C'} {name}"), line.format(name))
    lines = [" match ip address prefix-list P", " match community Q", "ip route 9.0.0.0 255.0.0.0 F 10.0.0.2", " match ip address prefix-list A P", " match community 5 Q"]
    for first in lines:
        for second in lines:
            clause = lambda text, number: [f"route-map M permit {number}", text] if text[0] == " " else [text]
            yield one(*DEFINED, *clause(first, 10), *clause(second, 10))
            yield one(*clause(first, 10), *clause(second, 20), *DEFINED)
            yield one(*DEFINED, *clause(first, 10), *clause(second, 10), "ip prefix-list P permit 10.0.0.0/8")
            yield one(*DEFINED, *clause(first, 10), *clause(second, 10), "ip community-list standard Q permit 1:1")
            two = {b"r1.cfg": b("\n".join(HEAD + clause(first, 10)) + "\n"), b"r2.cfg": b("\n".join(["hostname r2"] + DEFINED + clause(second, 10)) + "\n")}
            yield Case(two, [b"r1.cfg", b"r2.cfg"], ASK)
            yield Case(two, [b"r2.cfg", b"r1.cfg"], ASK)


def block_cases():
    """Where a clause begins, goes on and ends."""
    between = ["!", "", " ", " description x", "banner motd ^C x ^C", "banner motd ^C\nroute-map Z permit 1\n^C", "end", "interface F", "route-map M permit 10", "route-map M deny 10",
               "route-map M permit 20", "route-map N permit 10", "route-map M permit", "route-map M permit 10 x", "route-map M", "route-map", "route-map M permit x", "route-map permit 10",
               "ip prefix-list A permit 10.0.0.0/8", "hostname r2", "version 15.2", " interface F", " route-map N permit 5", "\troute-map", "Route-map M permit 10", "no route-map M permit 10"]
    inner = [" set metric 5", "\tset metric 5", "set metric 5", " match", " continue", " Match x", " no set metric", " shutdown", " ip address 10.1.0.1 255.255.255.0", " ip address x"]
    for text in between:
        for line in inner:
            yield one(*DEFINED, "route-map M permit 10", " set metric 7", text, line, " match community C")
            yield one(*DEFINED, "interface F", text, line, " match community C")
    for first in INNER:
        for second in INNER:
            yield with_clause(first, second)


def policy_cases():
    """All systematic cases of this file."""
    for cases in (word_cases, number_cases, length_cases, seq_cases, count_cases, reference_cases, block_cases):
        yield from cases()


def kind_policy():
    """Few names and few statements, in any order; some are changed."""
    odd = R.choice([0, 0, 0.02, 0.1])
    files = {}
    for r in range(R.choice([1, 1, 1, 2])):
        blocks = [(text, []) for text in HEAD[:1] + DEFINED * (R.random() < 0.7)]
        for _ in range(R.choice([1, 2, 4, 8, 16])):
            blocks.append(R.choice([lambda: (entry_statement(R.choice(LISTS)), []), lambda: (community_statement(R.choice(LISTS)), []),
                                    lambda: clause_block(["A", "B"], ["C", "5"]), lambda: (f"route-map {R.choice(MAPS)} permit 10", [set_statement()] * R.choice([1, 2]))])())
        if R.random() < 0.3:
            R.shuffle(blocks)
        lines = []
        for header, body in blocks:
            for k, text in enumerate([header] + body):
                ws = b(text).split(b" ")
                lines.append(write_words(mutate_words(ws) if R.random() < odd else ws, R.choice([b" ", b"\t", b"   "]) if k else b""))
                if R.random() < 0.05:
                    lines.append(R.choice([b"!", b"", b" ! x", b" description x", b"end", b"ip cef", b"interface E", b" shutdown"]))
        files[b"r%d.cfg" % (r + 1)] = b"\n".join(lines).replace(b"hostname r1", b"hostname r%d" % (r + 1)) + b"\ninterface E\n ip address 10.0.0.%d 255.255.255.0\n" % (r + 1)
    return Case(files, sorted(files), ASK)
