"""What statements that NetCov passes over do on a device, most telling first."""

EFFECTS = (
    ("taken out of a copy by `refusals`, and missing", r"unread"),
    ("packets are filtered, and no test asks this filter", r"ip access-group|ipv4 access-group|ip inspect|zone-member security|service-policy|"
     r"traffic-filter|ip verify|crypto map"),
    ("entries of such filters, and lines of lists that aren't read", r"ip access-list(?! (?:standard|extended) \S+$)|access-list(?! \d+ remark)|"
     r"no (?:ip )?access-list|no \d+|evaluate|permit|deny|\d+ (permit|deny)|zone-pair|policy-map|class-map|crypto"),
    ("an address that routers share: the gateway that a host has isn't in the files", r"standby|vrrp|glbp"),
    ("routes are accepted or chosen otherwise", r"bgp (maxas-limit|nexthop|bestpath|enforce-first-as|listen|suppress-inactive|deterministic-med|"
     r"cluster-id|client-to-client|dmzlink-bw|redistribute-internal|update-delay|rpki|graceful-shutdown|slow-peer)|no bgp(?! log)|"
     r"neighbor \S+ (maximum-prefix|dmzlink-bw|capability|slow-peer|translate-update|graceful-shutdown|as-path-loopcheck|send-label)|"
     r"ip as-path|ip community-list|ip extcommunity-list|ip policy-list|ip bgp-community|no (neighbor|network|aggregate-address|router)"),
    ("sessions are up or down otherwise", r"neighbor \S+ (password|fall-over|transport|timers|version|dont-capability-negotiate|ebgp-multihop|local-interface)|"
     r"bfd|bgp fast-external-fallover|key chain|keepalive|ip tcp"),
    ("routes are there or not by the state of something else", r"track|ip sla|event manager|backup interface|dampening|carrier-delay"),
    ("another way or another table", r"mpls|tunnel|ip summary-address|ip default-gateway|no ip route|"
     r"ip route-static|ip ospf|ip eigrp|ip rip|ip router isis|isis|no ip classless|no ip cef|ip load-sharing|ip mroute|ip multicast|ip pim"),
    ("another layer below", r"switchport|channel-group|encapsulation|bridge-group|spanning-tree(?! extend)|vlan|pppoe|ppp|dialer|frame-relay|"
     r"ip mtu|mtu|xconnect|no switchport|lacp|aggregate-port|no keepalive|media-type"),
    ("IPv6, which isn't read", r"ipv6"),
)
QUIET = (
    r"version|service|no service|hostname|boot|logging|no logging|aaa|no aaa|enable|username|clock|ntp|snmp-server|line|login|"
    r"exec-timeout|transport|password|privilege|end|exit|description|duplex|speed|negotiation|no negotiation|bandwidth|delay|load-interval|"
    r"ip (classless|cef|helper-address|domain|name-server|ssh|http|ftp|tftp|scp|forward-protocol|subnet-zero|bgp-community new-format|tacacs|radius|flow)|"
    r"no ip (domain|http|bootp|finger|gratuitous-arps|redirects|unreachables|proxy-arp|source-route|directed-broadcast|mroute-cache|route-cache)|"
    r"ip route-cache|bgp log-neighbor-changes|neighbor \S+ (description|send-community extended|soft-reconfiguration)|no auto-summary|no synchronization|"
    r"remark|\d+ remark|access-list \d+ remark|ip access-list|alias|archive|log config|hidekeys|license|redundancy|multilink|memory-size|stopbits|access-class|history|"
    r"cdp|no cdp|lldp|no lldp|tacacs|radius|certificate|quit|crypto pki|[0-9A-F]{8}|enrollment|subject-name|revocation-check|rsakeypair|"
    r"no (aaa|shutdown)|ip prefix-list|no platform|platform|control-plane|diagnostic|mode|spanning-tree extend|subscriber|process|hw-module|card|Building|Current|boot-\w+-marker|no ipv6|no mpls|vrf definition|ip vrf|rd|route-target|address-family|exit-address-family"
)
