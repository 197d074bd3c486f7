"""The inputs of `bench/run` and `bench/hostile`: lines of exchanges of several sizes, UPDATE messages, and texts of policies."""
import string

def comments(out):
    line = b"# " + b"x" * 97 + b"\n"
    for _ in range(1000):
        out.write(line * 1000)


def refused_lines(out):
    for _ in range(1000):
        out.write(b"frob A\n" * 1000)


def long_lines(out):
    for _ in range(1000):
        out.write(b"y" * 20000 + b"\n")


INPUTS = [
    ("100 MB of comments", comments),
    ("1000000 refused short lines", refused_lines),
    ("1000 lines of 20000 octets", long_lines),
]
PACKETS = 100000


def datagram(destination, source=b"\xc0\0\2\1", port=80):
    """28 octets of UDP to an address and a port, with a right header checksum."""
    header = bytes.fromhex("4500001c0000000040110000") + source + destination
    words = [int.from_bytes(header[i : i + 2], "big") for i in range(0, 20, 2)]
    total = sum(words)
    while total > 0xFFFF:
        total = (total & 0xFFFF) + (total >> 16)
    return header[:10] + (0xFFFF - total).to_bytes(2, "big") + header[12:] + b"\3\xe8" + port.to_bytes(2, "big") + b"\0\x08\0\0"


def exchange_of_200(out):
    """Two participants, 200 prefixes of length 16, and a router that has resolved all its next hops."""
    out.write(b"exchange 100.64.0.0 400 1000\n")
    for name, number in ((b"A", 1), (b"B", 2)):
        out.write(b"participant %s 6500%d 1.0.0.%d\n" % (name, number, number))
        out.write(b"port %s %d 172.16.1.%d 02:00:00:00:00:0%d\n" % (name, number, number, number))
    for n in range(200):
        out.write(b"update B " + update(b"", bytes([16, 10, n])).hex().encode() + b"\n")
    out.write(b"drain A\nresolve 1\n")


def exchange_with_packets(out):
    exchange_of_200(out)
    for n in range(PACKETS):
        out.write(b"packet 1 " + datagram(bytes([10, n * 7919 % 200, n >> 8 & 255, n & 255])).hex().encode() + b"\n")


def single_updates(out, count):
    """Sixteen participants with a port each, and so many updates, each of which announces a prefix of its own."""
    out.write(b"exchange 100.64.0.0 4000 100000\n")
    for n in range(16):
        out.write(b"participant P%d %d 1.0.0.%d\n" % (n, 65001 + n, n + 1))
        out.write(b"port P%d %d 172.16.1.%d 02:00:00:00:00:%02x\n" % (n, n + 1, n + 1, n + 1))
    for n in range(count):
        message = update(b"", bytes([24, 10, n // 256, n % 256]), 65001 + n % 16, n % 16 + 1)
        out.write(b"update P%d " % (n % 16) + message.hex().encode() + b"\n")


def message(withdrawn, attributes, prefixes):
    """An UPDATE message."""
    body = len(withdrawn).to_bytes(2, "big") + withdrawn + len(attributes).to_bytes(2, "big") + attributes + prefixes
    return b"\xff" * 16 + (19 + len(body)).to_bytes(2, "big") + b"\2" + body


def route(path, host):
    """ORIGIN, AS_PATH (one sequence) and NEXT_HOP (172.16.1.host)."""
    numbers = b"".join(number.to_bytes(2, "big") for number in path)
    return b"\x40\1\1\0\x40\2" + bytes([len(numbers) + 2, 2, len(path)]) + numbers + bytes.fromhex("400304ac1001") + bytes([host])


def update(attributes, prefixes, number=65002, host=2):
    """An UPDATE message that announces prefixes with these attributes beside ORIGIN, AS_PATH (of one AS) and NEXT_HOP (172.16.1.host)."""
    return message(b"", route([number], host) + attributes, prefixes)


def many_prefixes():
    numbers = [(n * 7919) % 1300 for n in range(1300)]
    return b"".join(bytes([16, 10 + n // 256, n % 256]) for n in numbers)


MESSAGES = [
    ("a small message", update(b"", b"\x08\x0a"), 1000000),
    ("1300 prefixes in no order", update(b"", many_prefixes()), 5000),
    ("150 unknown attributes, falling", update(b"".join(bytes([0xC0, 255 - n, 20]) + b"x" * 20 for n in range(150)), b"\x08\x0a"), 20000),
]


def choices(field, values, action):
    """A sum of one test a value."""
    return "+".join(f"match({field}={value}){action}" for value in values)


def settings(field, values):
    """A sum of one assignment a value."""
    return "+".join(f"modify({field}={value})" for value in values)


def nets(count):
    return [f"{value}.0.0.0/8" for value in range(1, count + 1)]


def grid(count, action):
    """Tests of four fields, each with so many values: (count + 1) to the fourth meets."""
    ports = range(1, count + 1)
    return "+".join([choices("srcport", ports, action), choices("dstport", ports, action),
                     choices("srcip", nets(count), action), choices("dstip", nets(count), action)])


def lonely(count):
    """Conjunctions that meet hardly anything, each of which is compared with all meets."""
    return "+".join(f"match(srcip=99.9.{i // 10}.{i % 10},srcport={100 + i},dstport={100 + i},proto=9)" for i in range(count))


def nested(levels, count):
    """Chains within chains; each loses a test, so that each has to be counted by itself."""
    text = "+".join([lonely(count), "+".join(f"match(srcip=1.2.3.4/{length})" for length in range(1, 15)),
                     choices("dstport", range(1, 44), ""), choices("srcport", range(1, 44), "")])
    for level in range(levels):
        text = f"modify(dstip=9.9.9.9)>>(match(dstip=1.1.1.{level})+{text})"
    return text


def lost(levels, octets):
    """Chains within chains, each of which loses a test, before tests that meet one another hardly at all."""
    start = "modify(srcport=1)>>(match(dstport=2,srcport=2)+"
    tests = [f"dstport=1,{field}={value}" for field, values in (("proto", range(1, 16)), ("inport", range(1, 16)),
             ("srcip", [f"{n}.1.1.1" for n in range(1, 16)]), ("dstip", [f"{n}.1.1.1" for n in range(1, 15)])) for value in values]
    left = octets - levels * (len(start) + 1) - len("match()") - len("|".join(tests))
    count = next(n for n in range(left) if len("|".join([f"dstport={3 + i}" for i in range(n + 1)] + tests)) - len("|".join(tests)) > left)
    return start * levels + "match(" + "|".join([f"dstport={3 + i}" for i in range(count)] + tests) + ")" + ")" * levels


def repeated(count):
    """A chain of sums of assignments, each with 900 ways."""
    parts = ")>>(".join([settings("srcport", range(1, 7)), settings("dstport", range(1, 7)),
                         settings("srcip", [f"{i}.0.0.0" for i in range(1, 6)]), settings("dstip", [f"{i}.0.0.0" for i in range(1, 6)])])
    return ">>".join([f"(({parts}))"] * count)


def either(field, count):
    return "match(" + "|".join(f"{field}={value}" for value in range(count)) + ")"


def crossed(count):
    """Each of so many tests of one field with each of another's."""
    return either("srcport", count) + ">>" + either("proto", count)


def grid_of(count):
    """So many tests of each of four fields, one field before the next."""
    values = range(1, count + 1)
    fields = [("srcport", values), ("dstport", values), ("srcip", nets(count)), ("dstip", nets(count))]
    return ">>".join("match(" + "|".join(f"{field}={value}" for value in found) + ")" for field, found in fields)


def within(count):
    """Source prefixes each within the one before, destinations likewise, and two tests of each port: all their meets."""
    lengths = [f"0.0.0.0/{length}" for length in range(1, count + 1)]
    fields = [("srcip", lengths), ("dstip", lengths), ("srcport", [1, 2]), ("dstport", [1, 2])]
    return "+".join("match(" + "|".join(f"{field}={value}" for value in found) + ")" for field, found in fields)


def twice(policy):
    """A policy before itself."""
    return f"({policy})>>({policy})"


SOURCES = settings("srcport", range(1, 33))
TARGETS = settings("dstport", range(1, 33))
POLICIES = [
    ("16 choices in each of four fields: 65536 meets", "wide " + grid(15, ">>fwd(C)")),
    ("one choice more", "wide " + grid(15, ">>fwd(C)") + "+match(srcport=16)>>fwd(C)"),
    ("32 assignments and then 32 others: 1024", "wide (" + SOURCES + ")>>(" + TARGETS + ")"),
    ("one assignment more", "wide (" + SOURCES + "+modify(srcport=33))>>(" + TARGETS + ")"),
    ("one chain before 116 lonely conjunctions", "wide " + nested(1, 116)),
    ("60 chains within chains before 65", "wide " + nested(60, 65)),
    ("62 chains within chains before some 330 tests apart", "wide " + lost(62, 8192)),
    ("18 sums of 900 assignments in a chain", "wide " + repeated(18)),
    ("300 clauses compile", "compile " + choices("dstport", range(1, 301), ">>fwd(C)")),
    ("two lists of 128 tests compile to 16513 rules", "compile " + crossed(128)),
    ("two lists of 256 tests compile to 65793 rules", "compile " + crossed(256)),
    ("eleven tests of each of four fields, before themselves", "compile " + twice(grid_of(11))),
    ("fifteen", "compile " + twice(grid_of(15))),
    ("2601 rules of prefixes within prefixes, before themselves", "compile " + twice(within(16))),
    ("9801", "compile " + twice(within(32))),
    ("two lists of 32 tests tightened", "tighten " + crossed(32)),
    ("two lists of 64 tests tightened", "tighten " + crossed(64)),
    ("two lists of 128 tests tightened", "tighten " + crossed(128)),
    ("two lists of 256 tests tightened", "tighten " + crossed(256)),
]
EDITS = 20


def clauses(tests, targets):
    """A clause a test, each to the next of the targets."""
    return "+".join(f"match({test})>>fwd({targets[n % len(targets)]})" for n, test in enumerate(tests))


def disjoint(targets):
    """300 clauses, no two of which apply to the same packet."""
    return clauses([f"dstport={n + 1}" for n in range(300)], targets)


def crossing(targets):
    """140 clauses, each of one half of which crosses each of the other: 71 times 71 meets."""
    ports = clauses([f"dstport={n + 1}" for n in range(70)], targets[:1])
    return ports + "+" + clauses([f"srcip=1.1.1.{n + 1}" for n in range(70)], targets[1:])


def by_source(count, targets):
    """So many clauses by source, of which at most 256 are different."""
    return clauses([f"srcip=1.1.1.{n % 256}" for n in range(count)], targets)


def line(*words):
    return " ".join(words).encode() + b"\n"


def declared(out, names, ports, size=65536, capacity=1000000):
    """Participants of AS 65001 and so on, and their ports: the owner of each, from port 1 on."""
    out.write(line("exchange", "100.64.0.0", str(size), str(capacity)))
    for number, name in enumerate(names, 1):
        out.write(line("participant", name, str(65000 + number), f"1.0.0.{number}"))
    for number, name in enumerate(ports, 1):
        out.write(line("port", name, str(number), f"172.16.1.{number}", f"02:00:00:00:00:{number:02x}"))


def exchange_of_three(out, further=""):
    """A with port 1, B with ports 2 and 3, C with port 4, and the owners of further ports; B and C announce one prefix, and C another."""
    declared(out, "ABC", "ABBC" + further)
    for name, number, host, prefix in (("B", 65002, 2, b"\x08\x0a"), ("C", 65003, 4, b"\x08\x0a"), ("C", 65003, 4, b"\x08\x14")):
        out.write(line("update", name, update(b"", prefix, number, host).hex()))


def edits(out, word, policy):
    """A policy, then `drop` in its place, again and again."""
    exchange_of_three(out)
    for _ in range(EDITS):
        out.write(line(*word, policy))
        out.write(line(*word, "drop"))


def named(n):
    """The participants' names: those of one letter first, since a text of 300 clauses has room for no longer ones."""
    return string.ascii_letters[n] if n < 52 else f"N{n}"


def participants(out, count):
    """So many participants with a port each."""
    out.write(b"exchange 100.64.0.0 65536 1000000\n")
    for n in range(count):
        out.write(line("participant", named(n), str(64512 + n), f"1.0.{n // 255}.{n % 255 + 1}"))
        out.write(line("port", named(n), str(n + 1), f"172.16.{n // 255 + 1}.{n % 255 + 1}", f"02:00:00:00:{n // 255:02x}:{n % 255:02x}"))


def announced(n, prefix):
    """One of the first 255 announces a prefix."""
    return line("update", named(n), update(b"", prefix, 64512 + n, n + 1).hex())


def among_64(out, word, policy, announcers, prefixes):
    """64 participants, each fourth of whom has a policy; then each of the announcers announces each of the prefixes."""
    participants(out, 64)
    for n in range(0, 64, 4):
        out.write(line(word, named(n), policy(n)))
    for count in range(prefixes):
        for n in announcers:
            out.write(announced(n, bytes([24, 10, count // 256, count % 256])))


EDITED = [
    ("out, 300 clauses of disjoint tests", ("out", "A"), disjoint("BC")),
    ("out, 140 clauses of two fields that cross", ("out", "A"), crossing("CB")),
    ("in, 260 clauses by source", ("in", "B"), by_source(260, "23")),
]
# word, policy of each fourth participant, who announces, and how many prefixes
JOINED = [
    ("out, 300 clauses of disjoint tests", "out", lambda n: disjoint([named(1), named(2)]), (1, 2), 50),
    ("out, 140 clauses of two fields that cross", "out", lambda n: crossing([named(1), named(2)]), (1, 2), 5),
    ("in, 255 clauses by source", "in", lambda n: by_source(255, [n + 1]), (0, 4), 20),
]
TOLD = 5000


def exchange_of_two(out):
    """A with port 1, B with port 2."""
    declared(out, "AB", "AB")


def untold(out):
    """5000 prefixes of B's that A isn't told yet."""
    exchange_of_two(out)
    for first in range(0, TOLD, 1000):
        prefixes = b"".join(bytes([24, 10, n // 256, n % 256]) for n in range(first, first + 1000))
        out.write(line("update", "B", update(b"", prefixes).hex()))


def tests_of(field, values):
    return [f"{field}={value}" for value in values]


def four_fields(first, last, action):
    """Tests of four fields, each with the values from one to another: 65536 meets where there are fifteen."""
    values = range(first, last + 1)
    return "+".join(choices(field, found, action) for field, found in (("srcport", values), ("dstport", values),
                    ("srcip", [f"{value}.0.0.0/8" for value in values]), ("dstip", [f"{value}.0.0.0/8" for value in values])))


def inside(count, ports):
    """Source and destination prefixes each within the one before, and tests of further fields: most of their meets overlap."""
    lengths = [f"0.0.0.0/{length}" for length in range(1, count + 1)]
    fields = [("srcip", lengths), ("dstip", lengths), ("srcport", (1, 2)), ("dstport", (1, 2)), ("proto", (6, 17)), ("inport", ports)]
    return "+".join("match(" + "|".join(tests_of(field, values)) + ")" for field, values in fields if values)


def filled(start, piece):
    """A text, and a piece again and again up to 8192 octets."""
    return start + piece * ((8192 - len(start)) // len(piece))


def repeated_before(policy, last):
    """A policy before itself, as often as a text has room for it, and before another."""
    return ">>".join([f"({policy})"] * ((8192 - len(last)) // (len(policy) + 4)) + [last])


def assigned(sources, targets):
    """So many source ports times so many destination ports are set."""
    return "(" + settings("srcport", range(1, sources + 1)) + ")>>(" + settings("dstport", range(1, targets + 1)) + ")"


def exchange_of_256(out):
    """256 participants, of whom all but the first announce one prefix."""
    participants(out, 256)
    for n in range(1, 255):
        out.write(announced(n, b"\x08\x0a"))


def receiver_of_four_fields(out):
    """B announces a prefix, and its policy tests four fields, each with values of its own."""
    exchange_of_two(out)
    out.write(line("update", "B", update(b"", b"\x08\x0a").hex()))
    out.write(line("in", "B", four_fields(16, 30, ">>fwd(2)")))


def receivers_of_four_fields(out):
    """Sixteen participants announce one prefix to the first one alone, and the policy of each has 65536 rules."""
    participants(out, 17)
    for n in range(1, 17):
        out.write(line("export", named(n), f"allow {named(0)} *; deny * *"))
        out.write(line("in", named(n), four_fields(1, 15, f">>fwd({n + 1})")))
        out.write(announced(n, b"\x08\x0a"))


def exchange_of_many_ports(out):
    """The exchange of three, where B has the ports from 5 to 254 besides."""
    exchange_of_three(out, 250 * "B")


def ports_without_routes(out):
    """The same participants and ports, where nobody announces a prefix, so that no policy has rules in the table."""
    declared(out, "ABC", "ABBC" + 250 * "B")


def denied(last, actions):
    """Tests by `!` of 15 values of each of three fields and of so many of a fourth, each before what its number makes of it."""
    tests = tests_of("srcport", range(1, 16)) + tests_of("dstport", range(1, 16)) + tests_of("srcip", nets(15)) + tests_of("dstip", nets(last))
    return "+".join(f"match(!{test})>>{actions(n)}" for n, test in enumerate(tests))


def four_each(n):
    """Four assignments that no other number has."""
    return "(" + settings("srcport", range(4 * n + 1, 4 * n + 5)) + ")"


def followed_by_tests(policy, first):
    """A policy before tests by `!` of source ports one after another, as many as there is room for."""
    return policy + "".join(f">>match(!srcport={port})" for port in range(first, first + (8192 - len(policy)) // len(">>match(!srcport=5000)")))


def tests_not(field, values):
    """Tests by `!` of the values of a field, one after another, behind something."""
    return "".join(f">>match(!{field}={value})" for value in values)


def narrower(last):
    """The prefixes 0.0.0.0/2 to the last, each within the one before."""
    return [f"0.0.0.0/{length}" for length in range(2, last + 1)]


def within_one(field, last):
    """One test of the prefixes 0.0.0.0/1 to the last of a field."""
    return "match(" + "|".join(tests_of(field, ["0.0.0.0/1", *narrower(last)])) + ")"


def ports(first, end):
    """Forwards to the ports from one to before another."""
    return "+".join(f"fwd({port})" for port in range(first, end))


def cut(policy, pieces, last):
    """A policy, as many of the pieces behind it as there is room for, and the last one."""
    text = policy
    for piece in pieces:
        if len(text) + len(piece) + len(last) > 8192:
            break
        text += piece
    return text + last


def nine_each(n):
    """Nine ways to set two fields that no other number has."""
    return "(" + settings("srcport", range(3 * n, 3 * n + 3)) + ")>>(" + settings("dstport", range(3)) + ")"


EACH = "+".join(f"fwd({named(n)})" for n in range(1, 255))
PORTS = "+".join(f"fwd({port})" for port in range(5, 255))
TEN_PORTS = "+".join(f"fwd({port})" for port in range(5, 15))
BEFORE_PORTS = assigned(31, 32) + ">>(" + PORTS + ")+" + four_fields(1, 15, "")
ASSIGNED = assigned(32, 32)
FROM = "|".join(tests_of("srcip", nets(190)))
TOWARDS = "|".join(tests_of("dstip", nets(190)))
MANY_PORTS = "+".join(f"fwd({port})" for port in range(5, 200))
FOUR_EACH = "(" + denied(15, four_each) + ")"
SLOWEST = [
    ("out, 65536 meets of four fields", exchange_of_three, ("out", "A"), four_fields(1, 15, ">>fwd(C)")),
    ("in, 65536 meets of four fields", exchange_of_three, ("in", "B"), four_fields(1, 15, ">>fwd(2)")),
    ("out, 65536 meets, to a receiver that tests 15 other values of each", receiver_of_four_fields, ("out", "A"), "(" + four_fields(1, 15, "") + ")>>fwd(B)"),
    ("out, one rule to sixteen receivers of 65536 rules each", receivers_of_four_fields, ("out", named(0)), "+".join(f"fwd({named(n)})" for n in range(1, 17))),
    ("out, 65536 meets of four fields and 254 targets each", exchange_of_256, ("out", named(0)), four_fields(1, 15, "") + "+" + EACH),
    ("out, 65536 meets and `pass` up to 8192 octets", exchange_of_three, ("out", "A"), filled(four_fields(1, 15, ""), "+pass")),
    ("out, 65536 meets before `pass` up to 8192 octets", exchange_of_three, ("out", "A"), filled("(" + four_fields(1, 15, "") + ")", ">>pass")),
    ("out, 9801 rules of prefixes within prefixes, before themselves", exchange_of_three, ("out", "A"), twice(within(32)) + ">>fwd(C)"),
    ("out, 15552 rules of prefixes within prefixes", exchange_of_three, ("out", "A"), twice(inside(23, ())) + ">>fwd(C)"),
    ("out, 29403 rules of prefixes within prefixes", exchange_of_three, ("out", "A"), twice(inside(32, ())) + ">>fwd(C)"),
    ("out, 58806 rules of prefixes within prefixes", exchange_of_three, ("out", "A"), twice(inside(32, (1,))) + ">>fwd(C)"),
    ("out, these 58806 rules before themselves up to 8192 octets", exchange_of_three, ("out", "A"), repeated_before(inside(32, (1,)), "fwd(C)")),
    ("in, 257 assignments and 65536 meets of four fields", exchange_of_three, ("in", "B"), assigned(16, 16) + "+" + four_fields(1, 15, "")),
    ("in, 1024 assignments and 65536 meets of four fields", exchange_of_three, ("in", "B"), assigned(33, 31) + "+" + four_fields(1, 15, "")),
    ("in, 257 assignments and 29403 rules of prefixes within prefixes", exchange_of_three, ("in", "B"), assigned(16, 16) + "+" + twice(inside(32, ()))),
    ("in, 1024 assignments and 29403 rules of prefixes within prefixes", exchange_of_three, ("in", "B"), assigned(33, 31) + "+" + twice(inside(32, ()))),
    ("in, 60 tests by `!` of four fields, each before 4 assignments", exchange_of_three, ("in", "B"), denied(15, four_each)),
    ("in, 58 tests by `!` of four fields, each before 9 assignments", exchange_of_three, ("in", "B"), denied(13, nine_each)),
    ("in, 1024 assignments before 250 ports", exchange_of_many_ports, ("in", "B"), assigned(32, 32) + ">>(" + PORTS + ")"),
    ("in, 65536 meets and 992 assignments before 250 ports, no routes", ports_without_routes, ("in", "B"), BEFORE_PORTS),
    ("in, 65536 meets and 16 assignments before ten ports, all before `pass`, no routes", ports_without_routes, ("in", "B"),
     "(" + assigned(4, 4) + ">>(" + TEN_PORTS + ")+" + four_fields(1, 15, "") + ")>>pass"),
    ("in, 60 tests by `!` of four fields, each before 4 assignments, before three ports, no routes", ports_without_routes, ("in", "B"),
     "(" + denied(15, four_each) + ")>>(fwd(2)+fwd(3)+fwd(5))"),
    ("in, the same before four ports, no routes", ports_without_routes, ("in", "B"),
     "(" + denied(15, four_each) + ")>>(fwd(2)+fwd(3)+fwd(5)+fwd(6))"),
    ("in, 65536 meets, the same again before a port, and 16 assignments before ten ports, no routes", ports_without_routes, ("in", "B"),
     assigned(4, 4) + ">>(" + TEN_PORTS + ")+" + four_fields(1, 15, "") + "+" + four_fields(1, 15, ">>fwd(2)")),
    ("in, 65536 meets, the same again before a port, and 992 assignments before 195 ports, no routes", ports_without_routes, ("in", "B"),
     assigned(31, 32) + ">>(" + MANY_PORTS + ")+" + four_fields(1, 15, "") + "+" + four_fields(1, 15, ">>fwd(2)")),
    ("in, 1024 assignments before tests of 190 sources or 190 destinations, no routes", ports_without_routes, ("in", "B"),
     f"{ASSIGNED}>>match({FROM}|{TOWARDS})>>fwd(2)"),
    ("in, 1024 assignments before tests of 190 sources and 190 destinations, no routes", ports_without_routes, ("in", "B"),
     f"{ASSIGNED}>>match(({FROM})&({TOWARDS}))>>fwd(2)"),
    ("in, 1024 assignments before 12 sources and 12 destinations, each before a port of its own, no routes", ports_without_routes, ("in", "B"),
     ASSIGNED + ">>(" + "+".join(f"match({test})>>fwd({n + 5})" for n, test in enumerate(tests_of("srcip", nets(12)) + tests_of("dstip", nets(12)))) + ")"),
    ("in, 60 tests by `!` of four fields, each before 4 assignments, before 92 tests by `!` of other ports, no routes", ports_without_routes, ("in", "B"),
     followed_by_tests(FOUR_EACH, 5000)),
    ("in, the same before tests by `!` of ports that are set, no routes", ports_without_routes, ("in", "B"), followed_by_tests(FOUR_EACH, 1)),
    ("in, 992 assignments before 245 ports, all before a test by `!`, no routes", ports_without_routes, ("in", "B"),
     "(" + assigned(31, 32) + ">>(" + "+".join(f"fwd({port})" for port in range(5, 250)) + "))>>match(!srcip=1.0.0.0/8)"),
]

# policies of which a part gives far more than the whole, or which meet far more put together from one end than from the other
SET = assigned(31, 32)
LITTLE = ">>match(srcport=1,dstport=1,srcip=1.0.0.0/8,dstip=1.0.0.0/8)"
THIRTY = ">>".join("match(" + "|".join(tests_of(field, values)) + ")" for field, values in (("srcport", range(1, 11)), ("dstport", range(1, 11)),
                   ("srcip", nets(10))))
SLOWEST += [
    ("in, 60 tests by `!`, each before 4 assignments, before 4 others, before 50 ports, before tests that leave little, no routes", ports_without_routes, ("in", "B"),
     FOUR_EACH + ">>(" + settings("dstport", range(1, 5)) + ")>>(" + ports(5, 55) + ")" + tests_not("srcport", range(5000, 5018)) + ">>match(srcport=1)"),
    ("in, the 60 tests and 60 times `pass`, before four ports, before tests that leave little, no routes", ports_without_routes, ("in", "B"),
     "(" + denied(15, four_each) + "+pass" * 60 + ")>>(" + ports(5, 9) + ")" + LITTLE),
    ("in, thirty sums with one more port behind the 60 tests, no routes", ports_without_routes, ("in", "B"),
     "(" * 30 + FOUR_EACH + "".join(f">>pass+fwd({port}))" for port in range(5, 35))),
    ("in, 992 assignments before the same before 250 ports and a test by `!`, no routes", ports_without_routes, ("in", "B"),
     f"{SET}>>(({SET}>>({PORTS}))+match(!srcip=1.0.0.0/8))"),
    ("in, 65536 meets before that, before tests that leave little, no routes", ports_without_routes, ("in", "B"),
     f"{grid_of(15)}>>(({SET}>>({PORTS}))+match(!srcip=1.0.0.0/8)){LITTLE}"),
    ("in, prefixes within prefixes before four assignments before tests by `!` of such prefixes, no routes", ports_without_routes, ("in", "B"),
     "(" + within_one("srcip", 31) + "+" + within_one("dstip", 31) + ")>>(modify(srcport=99)+modify(dstport=99)+modify(srcip=99.0.0.0)+modify(dstip=99.0.0.0))"
     + tests_not("srcip", narrower(31)) + tests_not("dstip", narrower(31)) + tests_not("srcport", range(1, 8)) + tests_not("dstport", range(1, 8))),
    ("in, 992 assignments and two more before tests of what is set, no routes", ports_without_routes, ("in", "B"),
     SET + ">>modify(srcip=1.1.1.1,dstip=1.1.1.1)" + "".join(">>match(" + "|".join(tests_of(field, values)) + ")" for field, values in
     (("srcport", range(1, 41)), ("dstport", range(1, 41)), ("srcip", nets(100)), ("dstip", nets(100))))),
    ("in, 900 times `pass` before 992 assignments before 250 ports, no routes", ports_without_routes, ("in", "B"),
     "(" + "+".join(["pass"] * 900) + f")>>({SET}>>({PORTS}))"),
    ("in, tests of thirty values before 600 times `pass` before 65536 meets, no routes", ports_without_routes, ("in", "B"),
     f"({THIRTY})>>(" + "+".join(["pass"] * 600) + f")>>({grid_of(15)})"),
]

# parts of policies that the operations don't compile, neither from the front nor from the end
ONE_EACH = "(" + denied(15, lambda n: f"modify(srcport={n})") + ")"
EITHER = ">>".join("match(" + "|".join(tests_of(field, values)) + ")" for field, values in (("dstport", range(1, 13)), ("srcip", nets(12)), ("dstip", nets(12))))
WIDER = ">>".join("match(" + "|".join(tests_of(field, values)) + ")" for field, values in (("dstport", range(1, 16)), ("srcip", nets(15)), ("dstip", nets(15))))
BESIDE_PORTS = twice(within(20)) + f"+{SET}>>({PORTS})"
PAIRED = [(one, other) for one in range(1, 32) for other in range(1, 33)]
BY_COLUMNS = [
    ("in, `pass` and a port before 60 tests by `!`, each before 4 assignments, no routes", "(pass+fwd(5))>>" + FOUR_EACH),
    ("in, `pass` before 58 tests by `!`, each before 9 assignments, no routes", "pass>>(" + denied(13, nine_each) + ")"),
    ("in, 260 times `pass` before the 60 tests, no routes", "pass>>" * 260 + FOUR_EACH),
    ("in, prefixes within prefixes beside 992 assignments before 250 ports before 58 tests by `!`, no routes",
     BESIDE_PORTS + tests_not("srcport", range(1, 29)) + tests_not("dstport", range(30))),
    ("in, the same before tests by `!` of both ports, no routes",
     cut(BESIDE_PORTS, [f">>match(!(srcport={one},dstport={other}))" for one, other in PAIRED], LITTLE)),
    ("in, the same before sums of two such tests, no routes",
     cut(BESIDE_PORTS, [f">>(match(!(srcport={one},dstport={other}))+match(!(srcport={one},dstport={other + 1})))" for one in range(1, 31)
                        for other in range(0, 30, 2)], LITTLE)),
    ("in, `pass` and a port before 60 tests by `!`, each before an assignment, before 250 tests by `!`, no routes",
     followed_by_tests("(pass+fwd(5))>>" + ONE_EACH, 5000)),
    ("in, 60 tests by `!`, each before two assignments, before 36 tests, before a test of 120 values that are set, no routes",
     "(" + denied(15, lambda n: "(" + settings("srcport", (n + 1, n + 61)) + ")") + f")>>({EITHER})>>match(" + "|".join(tests_of("srcport", range(1, 121))) + ")"),
    ("in, 60 tests by `!`, each before an assignment, before 36 tests, before tests by `!`, no routes",
     followed_by_tests(f"{ONE_EACH}>>({EITHER})", 5000)),
    ("in, the 60 tests before ten ports before 45 tests before a port, no routes", f"{FOUR_EACH}>>({TEN_PORTS})>>({WIDER})>>fwd(2)"),
    ("in, `pass` and a port before 60 tests by `!`, each before an assignment, before sums of two tests by `!`, no routes",
     cut("(pass+fwd(5))>>" + ONE_EACH, [f">>(match(!srcport={2 * n})+match(!srcport={2 * n + 1}))" for n in range(200)], "")),
]
SLOWEST += [(name, ports_without_routes, ("in", "B"), policy) for name, policy in BY_COLUMNS]

def to_ports(tests, first):
    """A sum of tests, each before a port of its own."""
    return "+".join(f"match({test})>>fwd({first + n})" for n, test in enumerate(tests))


def set_by(field, values, to):
    """A sum of tests of a field's values, each before an assignment of its own."""
    return "+".join(f"match({field}={value})>>modify({to}={n})" for n, value in enumerate(values, 1))


def either_way(field, values, to):
    """The same, and for each value an assignment behind the test by `!`."""
    return set_by(field, values, to) + "+" + "+".join(f"match(!{field}={value})>>modify({to}={n + 15})" for n, value in enumerate(values, 1))


def fourfold(count, first):
    """Fifteen tests of a field, each before so many assignments of its own."""
    field, to = first
    return "+".join(f"match({field}={value})>>({settings(to, range(4 * n, 4 * n + count))})" for n, value in enumerate(nets(15), 1))


def repeated_behind(start, piece, last):
    """A text, a piece as often behind it as there is room for, and the last one."""
    return start + piece * ((8192 - len(start) - len(last)) // len(piece)) + last


# texts that were made by reading the compiler: results that differ in their ports alone before many parts, a set of cubes for each
# assignment and port, tests of many values behind many assignments, copies, and two assignments whose numbers were made to agree
BESIDE = "(" + BESIDE_PORTS + ")"
UNLIKE = "(match(proto=1)+fwd(5))>>"
ALIKE = "modify(srcip=128.0.0.0,dstip=128.0.0.0,srcport=32768,dstport=32768)+modify(srcip=127.217.46.168,dstip=128.82.25.82,srcport=32789,dstport=32673)"
ADDRESSES = ">>".join("(" + settings(field, [f"{i}.0.0.0" for i in range(1, 33)]) + ")" for field in ("srcip", "dstip"))
EITHER_WAY = f"({either_way('srcip', nets(15), 'srcport')})>>({either_way('dstip', nets(15), 'dstport')})"
BY_READING = [
    ("in, two assignments whose numbers agree, before forty sums of `pass` and `pass`, no routes", f"({twice(within(20))}+{ALIKE})" + ">>(pass+pass)" * 40),
    ("in, 248000 results before hundreds of `pass`, before tests that leave little, no routes", repeated_behind(BESIDE, ">>pass", LITTLE)),
    ("in, 248000 results before a sum of hundreds of `pass`, before tests that leave little, no routes", repeated_behind(BESIDE + ">>(pass", "+pass", ")" + LITTLE)),
    ("in, 1024 assignments before thirty ports before a test of 480 values, no routes",
     f"{ADDRESSES}>>({to_ports(tests_of('srcport', range(30)), 5)})>>match(" + "|".join(tests_of("srcport", range(255)) + tests_of("dstport", range(225))) + ")"),
    ("in, a set of cubes for each of 900 assignments and each of sixty ports, no routes",
     f"{UNLIKE}(({set_by('srcip', nets(30), 'srcport')})>>({set_by('dstip', nets(30), 'dstport')})>>({to_ports(tests_of('proto', range(1, 61)), 5)}))"),
    ("in, the same by tests by `!`, no routes", f"{UNLIKE}(({EITHER_WAY})>>({to_ports(tests_of('proto', range(60)), 5)}))"),
    ("in, thirty assignments of each of two fields before 255 tests before a hundred ports, no routes",
     f"{UNLIKE}(({fourfold(2, ('srcip', 'srcport'))})>>({fourfold(2, ('dstip', 'dstport'))})>>{either('proto', 255)}>>({ports(5, 105)}))"),
    ("in, tests of thirty values before 1000 times `pass` before 65536 meets, no routes", f"({THIRTY})>>(" + "+".join(["pass"] * 1000) + f")>>({grid_of(15)})"),
    ("in, tests of thirty values before 120 times `pass` before 65536 meets before sixteen ports, no routes",
     f"({THIRTY})>>(" + "+".join(["pass"] * 120) + f")>>(({grid_of(15)})>>({ports(5, 21)}))"),
    ("in, sums of 66 million results before tests that leave little, no routes",
     "((" + denied(15, lambda n: "(" + settings("srcport", range(5 * n + 1, 5 * n + 5 + n % 2)) + ")") + ")>>(" + ports(5, 9) + "))" + LITTLE),
]
SLOWEST += [(name, ports_without_routes, ("in", "B"), policy) for name, policy in BY_READING]


def behind_one_another(count, targets):
    """Source and destination prefixes each within the one before, and tests of the protocol and of both ports."""
    lengths = [f"0.0.0.0/{length}" for length in range(1, count + 1)]
    fields = [("srcip", lengths), ("dstip", lengths), ("srcport", (1, 2)), ("dstport", targets), ("proto", (6, 17))]
    return "(" + "+".join("match(" + "|".join(tests_of(field, values)) + ")" for field, values in fields) + ")"


def receiver_of(policy):
    """B announces a prefix, and has the policy."""
    def start(out):
        exchange_of_two(out)
        out.write(line("update", "B", update(b"", b"\x08\x0a").hex()))
        out.write(line("in", "B", policy))
    return start


def turned(items, n):
    """The same, begun at another place."""
    n %= len(items)
    return items[n:] + items[:n]


def four_turned(n, action):
    """The same tests as those of four fields from 1 to 15, in another order for each number."""
    values = turned(list(range(1, 16)), n)
    nets = [f"{value}.0.0.0/8" for value in values]
    tests = [choices("srcport", values, action), choices("dstport", values, action), choices("srcip", nets, action), choices("dstip", nets, action)]
    return "+".join(turned(tests, n))


def four_alike(n, action):
    return four_fields(1, 15, action)


def set_each(field, values, to, first, action, numbers=1000):
    """A sum of tests of a field's values, each before one of so many assignments."""
    return "+".join(f"match({field}={value})>>modify({to}={first + i % numbers}){action}" for i, value in enumerate(values))


def four_assigning(n, action):
    """Tests of four fields from 1 to 15, each before an assignment of its own, so that each rule gives a list of its own."""
    return "+".join([set_each("srcport", range(1, 16), "dstport", 1, action), set_each("dstport", range(1, 16), "srcport", 1, action),
                     set_each("srcip", nets(15), "srcport", 100, action), set_each("dstip", nets(15), "dstport", 100, action)])


def four_assigning_alike(n, action):
    """The same, but that the tests of the last field are before four assignments, so that four rules each give one list."""
    return "+".join([set_each("srcport", range(1, 16), "dstport", 1, action), set_each("dstport", range(1, 16), "srcport", 1, action),
                     set_each("srcip", nets(15), "srcport", 100, action), set_each("dstip", nets(15), "dstport", 100, action, 4)])


def two_of_four(n, action):
    """Tests of two of four fields from 1 to 30, of the others where the number is even, each before an assignment of its own."""
    one, other = (("srcport", range(1, 31)), ("dstport", range(1, 31))) if n % 2 else (("srcip", nets(30)), ("dstip", nets(30)))
    return set_each(*one, "dstport", 1, action) + "+" + set_each(*other, "srcport", 1, action)


def receivers_of(count, prefixes, fields=four_alike):
    """So many participants announce prefixes to the first one alone, and the policy of each has 65536 rules."""
    def start(out):
        participants(out, count + 1)
        for n in range(1, count + 1):
            out.write(line("export", named(n), f"allow {named(0)} *; deny * *"))
            out.write(line("in", named(n), fields(n, f">>fwd({n + 1})")))
        for number in range(prefixes):
            for n in range(1 + number, count + 1):
                out.write(announced(n, bytes([8, 10 + number])))
    return start


def each_of(count):
    return "+".join(f"fwd({named(n)})" for n in range(1, count + 1))


def announcers(count, prefixes):
    """So many participants announce prefixes, of which each later one is announced by one participant fewer."""
    def start(out):
        participants(out, count + 1)
        for number in range(prefixes):
            for n in range(1 + number, count + 1):
                out.write(announced(n, bytes([8, 10 + number])))
    return start


def announcers_with_policies(count, prefixes, numbers):
    """The same, and those with these numbers have a policy of one test."""
    def start(out):
        announcers(count, prefixes)(out)
        for n in numbers:
            out.write(line("in", named(n), f"match(proto=6)>>fwd({n + 1})"))
    return start


def other_nine(n):
    return "(" + settings("srcport", range(3 * n, 3 * n + 3)) + ")>>(" + settings("dstport", range(3, 6)) + ")"


# joining a sender's rules with receivers', and what a sum goes through
SLOWEST += [
    ("out, prefixes within prefixes to a receiver that tests the same", receiver_of(behind_one_another(32, (1, 2)) + ">>fwd(2)"), ("out", "A"), behind_one_another(32, (1, 2)) + ">>fwd(B)"),
    ("out, the same to one that tests one value more", receiver_of(behind_one_another(32, (1, 2, 3)) + ">>fwd(2)"), ("out", "A"), behind_one_another(32, (1, 2)) + ">>fwd(B)"),
    ("out, one rule to 64 receivers of 65536 rules each", receivers_of(64, 1), ("out", named(0)), each_of(64)),
    ("out, one rule to sixteen such receivers, for eight tags", receivers_of(16, 8), ("out", named(0)), each_of(16)),
    ("out, one rule to sixteen receivers that test the same in other orders", receivers_of(16, 1, four_turned), ("out", named(0)), each_of(16)),
    ("out, one rule to 64 such receivers", receivers_of(64, 1, four_turned), ("out", named(0)), each_of(64)),
    ("out, 65536 meets and 240 targets each, for two tags", announcers(240, 2), ("out", named(0)), four_fields(1, 15, "") + "+" + each_of(240)),
    ("in, 900 assignments by tests before a sum of 255 tests, before tests that leave little, no routes", ports_without_routes, ("in", "B"),
     f"{EITHER_WAY}>>(" + "+".join(f"match(proto={n})" for n in range(255)) + ")" + LITTLE),
]

# the pairs of many tags, each with rules of many receivers; and receivers whose rules give lists of their own
SLOWEST += [
    ("out, one rule to sixteen receivers of 65536 rules each, for fifteen tags", receivers_of(16, 15), ("out", named(0)), each_of(16)),
    ("out, one rule to 64 such receivers, for four tags", receivers_of(64, 4), ("out", named(0)), each_of(64)),
    ("out, one rule to 64 receivers that test the same in other orders, for four tags", receivers_of(64, 4, four_turned), ("out", named(0)), each_of(64)),
    ("out, 65536 meets and 240 targets each, one of whom has two rules, for two tags", announcers_with_policies(240, 2, [3]), ("out", named(0)), four_fields(1, 15, "") + "+" + each_of(240)),
    ("out, 65536 meets and 240 targets each, who have two rules each", announcers_with_policies(240, 1, range(1, 241)), ("out", named(0)), four_fields(1, 15, "") + "+" + each_of(240)),
    ("out, one rule to 64 receivers, each of whose 65536 rules gives another list", receivers_of(64, 1, four_assigning), ("out", named(0)), each_of(64)),
    ("out, one rule to sixteen such receivers, for four tags", receivers_of(16, 4, four_assigning), ("out", named(0)), each_of(16)),
    ("out, one rule to 240 receivers of 65536 rules each that test the same in other orders", receivers_of(240, 1, four_turned), ("out", named(0)), each_of(240)),
]

# what gives more than 16 million results, and takes more than ten seconds, or 2 GB with what it stands in place of
BEYOND = [
    ("out, one rule to 120 receivers, each of whose 65536 rules gives another list", receivers_of(120, 1, four_assigning), ("out", named(0)), each_of(120)),
    ("out, one rule to 120 receivers, of whose 65536 rules some four give one list", receivers_of(120, 1, four_assigning_alike), ("out", named(0)), each_of(120)),
    ("out, one rule to sixteen receivers of 961 rules each, by two fields and by two others: 923521 rules", receivers_of(16, 1, two_of_four), ("out", named(0)), each_of(16)),
    ("in, 58 tests by `!`, each before nine assignments, in place of as many others", receiver_of(denied(13, nine_each)), ("in", "B"), denied(13, other_nine)),
]

# a policy that is accepted, and the reply to which has 248000 actions in each of 65536 rules
ENDLESS = ("in, 65536 meets and 992 assignments before 250 ports", exchange_of_many_ports, ("in", "B"), BEFORE_PORTS)


def each_alone(out):
    untold(out)
    out.write(b"take A 1\n" * TOLD)


def all_at_once(out):
    untold(out)
    out.write(b"drain A\n")


PARSED = 200


# participants, and how many prefixes
DRAINED = [(3, (10000, 20000, 40000)), (16, (2500, 5000, 10000))]


def drained(out, count, prefixes):
    """B announces so many prefixes of length 24, each by an update of its own; then all of so many participants drain."""
    further = [f"P{n}" for n in range(4, count + 1)]
    declared(out, [*"ABC", *further], [*"ABBC", *further])
    for n in range(prefixes):
        out.write(line("update", "B", update(b"", bytes([24, 10, n >> 8, n & 255])).hex()))
    for name in [*"ABC", *further]:
        out.write(line("drain", name))


# less than 200, so that in an exchange of 200 prefixes as in one of 20000 each unit places a tag
UNITS = 150


def grown(out, prefixes):
    """Three participants, and so many prefixes of length 24, each announced by an update of its own."""
    out.write(b"exchange 100.64.0.0 65536 1000000\n")
    for name, number in ((b"A", 1), (b"B", 2), (b"C", 3)):
        out.write(b"participant %s 6500%d 1.0.0.%d\n" % (name, number, number))
        out.write(b"port %s %d 172.16.1.%d 02:00:00:00:00:0%d\n" % (name, number, number, number))
    for n in range(prefixes):
        out.write(b"update B " + update(b"", bytes([24, 10, n >> 8, n & 255])).hex().encode() + b"\n")


def ended_at_once(out, prefixes):
    """The same, and a job that does all its units in one line."""
    grown(out, prefixes)
    out.write(b"recompile\nwork 1000000000\n")


def begun(out, prefixes):
    """The same, a job that has begun, and updates that announce what is there already."""
    grown(out, prefixes)
    out.write(b"recompile\n")
    for n in range(UNITS):
        out.write(b"update B " + update(b"", bytes([24, 10, 0, n & 127])).hex().encode() + b"\n")


def unit_by_unit(out, prefixes):
    """The same, with a unit of the job's work behind each of these updates."""
    grown(out, prefixes)
    out.write(b"recompile\n")
    for n in range(UNITS):
        out.write(b"update B " + update(b"", bytes([24, 10, 0, n & 127])).hex().encode() + b"\nwork 1\n")
