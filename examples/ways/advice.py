"""What to do about statements that NetCov refuses, by their cause and their words."""
import re

ADVICE = (
    ("encoding", "", "file in another encoding: save it as UTF-8 without a byte order mark (plain-text does)"),
    ("no-name", "", "file without `hostname`: give it one, by which tests name it"),
    ("same-name", "", "name of two routers: is a file named twice? Else give each its own `hostname`"),
    ("same-address", "", "address on two routers, as a gateway on two leaves has it: leave it on one of them, and test the"
     " other one by `rib` of its own link; or give each its own address, and the shared one is `standby`'s, which is passed over"),
    ("overlap", "", "interface inside the prefix of another of its router: shut the one that isn't used, or mend its mask"),
    ("undefined", r"route-map|match|update-source|ip route",
     "name that nothing defines: a slip, or a list of another kind; on a device such a name permits all or nothing"),
    ("two-processes", "", "second BGP process: only one is read"),
    ("unsupported", r"^router (ospf|eigrp|isis|rip)", "other routing protocol: write what it does as static routes: on each"
     " router, for each other loopback, one `ip route` for each next hop that OSPF would use at equal cost; a longer way gets a"
     " greater distance"),
    ("unsupported", r"^no bgp default ipv4-unicast|^bgp default", "default of address families: take the line out where"
     " each neighbor has `activate` in the family ipv4; a neighbor without it needs `shutdown` here"),
    ("unsupported", r"^address-family (?!ipv4( unicast)?$)", "other address family: take out the family and its block"),
    ("unsupported", r"vrf", "VRF: shut its interfaces and take out its routes, for they are in another table; one that"
     " carries traffic can be a router of its own, in a file of its own"),
    ("unsupported", r"^neighbor \S*:", "neighbor over IPv6: take it out"),
    ("unsupported", r"weight", "weight: it decides on this router alone; `set local-preference` in a map for what comes in does so here"
     " too, and tells the others of the system"),
    ("unsupported", r"default-originate", "default route for a neighbor: write `network 0.0.0.0`, and a default route that begins it"),
    ("unsupported", r"filter-list|match as-path", "filter by paths: write the prefixes that it lets pass as a prefix list"),
    ("unsupported", r"^maximum-paths", "ways inside the system side by side, or more than 16: take it out; one of them is chosen here"),
    ("unsupported", r"^aggregate-address", "option of an aggregate: take the option out; paths of what is inside it aren't told"),
    ("unsupported", r"peer-group|inherit|^template|neighbor [A-Za-z]", "peer group or template: write its statements for each neighbor"
     " (without-peer-groups does it for groups)"),
    ("syntax", r"^neighbor ", "neighbor without `remote-as` of its own, as in a peer group: write it for the neighbor"),
    ("unsupported", r"secondary", "secondary address: take the line out, and add an interface of its own at the end of the file; devices"
     " print a secondary address before the primary, and an `interface` line put in its place would take the primary with it"),
    ("unsupported", r"^neighbor \S+ prefix-list", "prefix list at a neighbor: a route map with one clause that matches the list"
     " does the same: `route-map W permit 10`, ` match ip address prefix-list W`, `neighbor A route-map W out`; where the"
     " neighbor has a map in that direction, put `match ip address prefix-list W` into each of its permit clauses instead;"
     " one that names another prefix list needs a list of what both permit"),
    ("unsupported", r"^banner.*\x03", "banner between bytes 3, which a terminal shows as ^C, in a file that was copied off a device:"
     " `sed 's/\\x03/^C/g'` puts the two characters in their place"),
    ("unsupported", r"^banner", "banner between other marks than ^C: put ^C in their place, as devices print it"),
    ("unsupported", r"^redistribute", "redistribution: write a `network` for each prefix that it brings"),
    ("unsupported", r"ip nat|ip policy|ip local policy", "translation or policy routing: take it out; packets that it touches"
     " go another way than NetCov says"),
    ("unsupported", r"^ip route .* (track|permanent)", "option of a static route: take the option out, and the route is there"),
    ("unsupported", r"^ip route", "route to an interface without a next hop: write the next hop behind it"),
    ("unsupported", r"route-reflector-client", "route reflection: write sessions between all routers of the system"),
    ("unsupported", r"^ip address|ip unnumbered", "address that isn't written: write the address that it has"),
    ("unsupported", r"^(\d+ )?(permit|deny)|^access-list", "entry of an access list by which an interface filters, in a form that isn't read: write"
     " it by addresses and wildcards, or take it out, and mind that the entries behind it decide on its packets then"),
    ("unsupported", r"^(match|set|continue)", "form of a route map that isn't read: write the clause with prefix lists and"
     " community lists, or take it out and mind what it did"),
)


def advice_for(cause, text):
    """What to do about a refused statement."""
    for kind, words, advice in ADVICE:
        if kind == cause and re.search(words, text.strip()):
            return advice
    if cause == "syntax":
        return "statement that is malformed, or of a form that NetCov doesn't know: compare it with docs/LANGUAGE.md"
    return "statement that changes what is routed and isn't read: take it out, and mind what it did"
