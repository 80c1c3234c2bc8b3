"""Texts of sets of AS numbers and of IP addresses, and what they print, for the scripts that write stored cases.

What a text of addresses prints is what Python's `ipaddress` says: a run of addresses that it sums up as one network is that
network, another is its two ends; texts that it reads otherwise have their prints beside them. Of AS numbers it is what a few
lines over sorted pairs of numbers say.
"""

import ipaddress

ASNS = [
    "AS1-3, 4,7", "1", "AS1", "as1", "aS1", "As1-AS3", "AS1-3", "1-AS3", "0", "4294967295", "AS4294967295", "0-4294967295",
    "00000000001", "AS007", "1,2,3,5,6,9", "9,6,5,3,2,1", "1-10,2-3", "1-10,10-20", "1-10,11-20", "1-10,12-20", "10-20,1-5,4-9",
    "7,7,7", "  7  ,  8  ", "64496-64511,65536-65551", "64511,64496-64510", "4294967294,4294967295", "0,1", "", " ", "      ",
]

# No texts of AS numbers.
NO_ASNS = [
    "3-1", "4294967296", "AS4294967296", "1-4294967296", "99999999999999999999", "AS", "A1", "S1", "ASAS1", "AS 1", "1 - 3",
    "1-", "-1", "1-2-3", "1,", "1,,2", ",", "1;2", "+1", "-", "1.5", "0x10", "1/8", "AS1-", "\t1",
]

IPV4 = [
    "0.0.0.0/0", "255.255.255.255", "0.0.0.0", "10.0.0.0/8", "10.0.0.0/9, 10.128.0.0/9", "10.0.0.1-10.0.0.2",
    "10.0.0.0-10.0.0.255", "10.0.0.1/8", "192.0.2.77/24", "192.0.2.0/24,192.0.2.0/25", "192.0.2.128/25,192.0.2.0/25",
    "10.0.0.0/24,10.0.2.0/24", "10.0.0.0/24,10.0.1.0/24,10.0.2.0/24", "10.0.0.5,10.0.0.4,10.0.0.7,10.0.0.6",
    "10.0.0.5,10.0.0.7", "0.0.0.0-255.255.255.255", "0.0.0.0/1,128.0.0.0/1", "255.255.255.254,255.255.255.255",
    "255.255.255.255-255.255.255.255", "10.0.0.0-10.0.0.0", "  10.0.0.0/8  ,   11.0.0.0/8   ", "10.0.0.0/008", "1.2.3.4/032",
    "1.2.3.4/0", "10.0.0.0-10.255.255.254", "10.0.0.1-10.255.255.255", "198.51.100.0/24,203.0.113.0/24,192.0.2.0/24",
    "10.0.0.0/8,10.1.0.0/16,10.2.3.4", "9.255.255.255,10.0.0.0/8,11.0.0.0", "172.16.0.0/12,10.0.0.0/8,192.168.0.0/16",
    "1.1.1.1,1.1.1.1,1.1.1.1", "1.0.0.0-3.255.255.255", "0.0.0.1-0.0.0.3",
]

IPV6 = [
    "::/0", "::", "::1", "2001:DB8::/32", "2001:db8::", "ffff:ffff:ffff:ffff:ffff:ffff:ffff:ffff",
    "ffff:ffff:ffff:ffff:ffff:ffff:ffff:fffe-ffff:ffff:ffff:ffff:ffff:ffff:ffff:ffff",
    "2001:0db8:0000:0000:0000:0000:0000:0001", "2001:db8:0:1:1:1:1:1", "2001:db8:0:0:1:0:0:1", "1:0:0:2:0:0:0:3",
    "1:0:0:0:2:0:0:3", "0:0:1:0:0:0:0:0", "1:0:0:0:0:0:0:0", "0:0:0:0:0:0:0:1", "1:2:3:4:5:6:7:0", "0:2:3:4:5:6:7:8",
    "1::3:4:5:6:7:8", "1:2:3:4:5:6:7::", "::2:3:4:5:6:7:8", "::1.2.3.4", "64:ff9b::192.0.2.33", "1:2:3:4:5:6:1.2.3.4",
    "ABCD:EF01:2345:6789:abcd:ef01:2345:6789", "2001:db8::/33,2001:db8:8000::/33", "2001:db8::-2001:db8::ffff",
    "2001:db8::1-2001:db8::ffff", "2001:db8:ffff:ffff::1/32", "2001:db8::1/128", "2001:db8::/0128", "::/1,8000::/1",
    "::-ffff:ffff:ffff:ffff:ffff:ffff:ffff:ffff", "::-ffff:ffff:ffff:ffff:ffff:ffff:ffff:fffe",
    "::1-ffff:ffff:ffff:ffff:ffff:ffff:ffff:ffff", "2001:db8::1,2001:db8::2,2001:db8::3",
    "2001:db8:2::/48, 2001:db8::/48, 2001:db8:1::/48", "fe80::/10,fc00::/7", "ff00::/8 , fe80::/10", "2001:db8::/127",
    "0:0:0:0:0:0:0:0/64", "1:0:2:0:3:0:4:0", "0:1:0:2:0:3:0:4", "1:0:0:2:3:4:5:6", "00a0:000b:0c00:d000::",
]

# Texts and their prints by the rule alone: `ipaddress` reads no empty text and no long zeros, and newer ones print addresses in
# ::ffff:0:0/96 with dots.
IPV4_BY_THE_RULE = [
    ("", ""), ("   ", ""), ("0.0.0.0/00000", "0.0.0.0/0"),
]

IPV6_BY_THE_RULE = [
    ("::ffff:1.2.3.4", "::ffff:102:304/128"), ("::ffff:0:0/96", "::ffff:0:0/96"),
    ("::FFFF:1.2.3.4-::ffff:1.2.3.5", "::ffff:102:304/127"), ("", ""), ("  ", ""),
]

# No texts of addresses; `ipaddress` takes none of them for one either, but that with a scope.
NO_IPV4 = [
    "10.0.0", "10.0.0.0.0", "256.0.0.0", "01.2.3.4", "1.2.3.04", "1.2.3.4/33", "1.2.3.4/", "1.2.3.4/+8", "1.2.3.4/8/8", "/8",
    "1.2.3.4-", "-1.2.3.4", "1.2.3.5-1.2.3.4", "1.2.3.4-1.2.3.5/32", "1.2.3.4 - 1.2.3.5", "1.2.3.4 /8", "1.2.3.4,", ",",
    "a.b.c.d", "::1", "16909060", "1.2.3.4/4294967296",
]

NO_IPV6 = [
    "1:2:3:4::5:6:7:8", "1:2:3:4:5:6:7:8::", "::1:2:3:4:5:6:7:8", "1::2::3", "12345::", "g::", ":::", "1:2:3:4:5:6:7",
    "1:2:3:4:5:6:7:8:9", "1:2:3:4:5:6:7:1.2.3.4", "1.2.3.4::", ":1::", "1:", "::1/129", "::2-::1", "10.0.0.1", "::01.2.3.4",
    "::256.1.1.1", "::1%eth0", "[::1]", ":", "::/-1",
]


# ---- what a text prints


def numbers_of(word):
    """The first and the last of the AS numbers of an item."""
    ends = [int(end.lower().removeprefix("as")) for end in word.split("-")]
    return ends[0], ends[-1]


def addresses_of(word):
    """The first and the last of the addresses of an item, as numbers."""
    if "-" in word:
        return tuple(int(ipaddress.ip_address(end)) for end in word.split("-"))
    network = ipaddress.ip_network(word, strict=False)
    return int(network[0]), int(network[-1])


def runs(pairs):
    """The maximal runs of the numbers in these pairs."""
    found = []
    for first, last in sorted(pairs):
        if found and first <= found[-1][1] + 1:
            found[-1] = found[-1][0], max(last, found[-1][1])
        else:
            found.append((first, last))
    return found


def printed_numbers(first, last):
    """A run of AS numbers, as it is printed."""
    return str(first) if first == last else f"{first}-{last}"


def printer(address):
    """What prints a run of addresses of this class."""
    def printed(first, last):
        networks = list(ipaddress.summarize_address_range(address(first), address(last)))
        return str(networks[0]) if len(networks) == 1 else f"{address(first)}-{address(last)}"
    return printed


def print_of(text, ends, printed):
    """What a text prints whose items `ends` reads and whose runs `printed` prints."""
    words = [word.strip(" ") for word in text.split(",")] if text.strip(" ") else []
    return ",".join(printed(*run) for run in runs(map(ends, words)))


def is_address(text, address):
    """Whether a text is an address."""
    try:
        address(text)
    except ValueError:
        return False
    return True


# Of each kind what an item's ends are, and what prints a run.
RULES = {
    "as": (numbers_of, printed_numbers), "ipv4": (addresses_of, printer(ipaddress.IPv4Address)),
    "ipv6": (addresses_of, printer(ipaddress.IPv6Address))}


def singles(kind, n):
    """So many items of one number each, up to 66000, in ascending order, of which no two touch. Their texts are short."""
    if kind == "as":
        return [str(2 * i) for i in range(n)]
    if kind == "ipv4":
        return [f"{i // 6600}.{i // 660 % 10}.{i // 66 % 10}.{2 * (i % 66)}" for i in range(n)]
    return [f"{i:x}::" for i in range(n)]


def printed(kind, text):
    """What a text of this kind prints."""
    return print_of(text, *RULES[kind])


def kinds():
    """Of each kind the name of its call, the texts with their prints, and texts that stand for no set."""
    yield "as", [(text, printed("as", text)) for text in ASNS], NO_ASNS
    for name, texts, by_the_rule, none, address in (
            ("ipv4", IPV4, IPV4_BY_THE_RULE, NO_IPV4, ipaddress.IPv4Address),
            ("ipv6", IPV6, IPV6_BY_THE_RULE, NO_IPV6, ipaddress.IPv6Address)):
        assert not any(is_address(text, address) for text in none if "%" not in text)
        yield name, [(text, printed(name, text)) for text in texts] + by_the_rule, none
