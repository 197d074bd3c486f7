"""An exchange of many participants with policies, as inputs of `bench/run`: blocks of prefixes, bursts of updates, and packets."""
import random

from inputs import clauses, datagram, declared, line, message, named, route, tests_of

PEERS = (16, 32, 64)
SERVICES = (80, 443, 8080, 53, 22, 25, 1935, 5060, 3478, 993, 123, 587, 8443, 21, 179, 5222)
BLOCKS, IN_BLOCK = 100, 50
BURSTS, IN_BURST = 3, 40
PACKETS_OF_PEERS = 50000
# how often all of 64 drain with nothing pending: what few of these take is lost in what the lines before them take
IDLE = 16000


def one_of(chance, values):
    """One of them, the first ones far more often."""
    return values[int(len(values) * chance.random() ** 2)]


def in_blocks(number):
    """The prefix of this number, as an UPDATE has it."""
    return bytes([24, 20, number >> 8, number & 255])


def peers_of(count):
    """So many participants, each a name and its ports: each eighth has two."""
    ports = iter(range(1, 2 * count))
    return [(named(n), [next(ports) for _ in range(2 if n % 8 == 0 else 1)]) for n in range(count)]


def exchange_of_peers(out, chance, peers):
    """Each fourth sends four services to others; those with two ports take each half of the sources at one."""
    declared(out, [name for name, _ in peers], [name for name, ports in peers for _ in ports])
    for n, (name, ports) in enumerate(peers):
        if n % 4 == 1:
            others = [other for other, _ in peers if other != name]
            out.write(line("out", name, clauses(tests_of("dstport", SERVICES[:4]), [one_of(chance, others) for _ in range(4)])))
        if len(ports) == 2:
            out.write(line("in", name, clauses(["srcip=0.0.0.0/1", "srcip=128.0.0.0/1"], ports)))


def blocks(out, chance, peers):
    """Blocks of prefixes, each announced by one to eight participants; who announces each."""
    holders = [sorted({one_of(chance, range(len(peers))) for _ in range(chance.randint(1, 8))}) for _ in range(BLOCKS)]
    for block, announcers in enumerate(holders):
        prefixes = b"".join(in_blocks(block * IN_BLOCK + n) for n in range(IN_BLOCK))
        for n in announcers:
            name, ports = peers[n]
            path = [65001 + n] + [2000 + block] * chance.randint(1, 3)
            out.write(line("update", name, message(b"", route(path, ports[0]), prefixes).hex()))
    return holders


def burst(out, chance, peers, holders):
    """Updates of one prefix each: one of four withdraws it, the others announce it by another path."""
    for _ in range(IN_BURST):
        block = chance.randrange(BLOCKS)
        prefix = in_blocks(block * IN_BLOCK + chance.randrange(IN_BLOCK))
        n = chance.choice(holders[block])
        path = [65001 + n] + [chance.randrange(3000, 4000) for _ in range(chance.randrange(4))]
        name, ports = peers[n]
        told = message(prefix, b"", b"") if chance.randrange(4) == 0 else message(b"", route(path, ports[0]), prefix)
        out.write(line("update", name, told.hex()))


def all_drain(out, peers):
    for name, _ in peers:
        out.write(line("drain", name))


def a_job_and_all_drain(out, peers):
    out.write(b"recompile\nwork 1000000000\n")
    all_drain(out, peers)


def many(out, count, settle):
    """Participants with policies, 5000 prefixes in blocks, and bursts of updates; after the blocks and after each burst they settle."""
    chance, peers = random.Random(count), peers_of(count)
    exchange_of_peers(out, chance, peers)
    holders = blocks(out, chance, peers)
    settle(out, peers)
    for _ in range(BURSTS):
        burst(out, chance, peers, holders)
        settle(out, peers)


def settled(out):
    """64 such participants after the blocks, a job and their drains, with all next hops resolved; who they are."""
    chance, peers = random.Random(64), peers_of(64)
    exchange_of_peers(out, chance, peers)
    blocks(out, chance, peers)
    a_job_and_all_drain(out, peers)
    for port in (port for _, ports in peers for port in ports):
        out.write(line("resolve", str(port)))
    return peers


def settled_with_packets(out):
    """Datagrams of all ports to all services, from all sources; one of twenty to a prefix that nobody announces."""
    chance, last = random.Random(PACKETS_OF_PEERS), settled(out)[-1][1][-1]
    for _ in range(PACKETS_OF_PEERS):
        first = 21 if chance.randrange(20) == 0 else 20
        destination = bytes([first]) + in_blocks(chance.randrange(BLOCKS * IN_BLOCK))[2:] + bytes([chance.randint(1, 250)])
        packet = datagram(destination, chance.randbytes(4), chance.choice(SERVICES))
        out.write(line("packet", str(chance.randint(1, last)), packet.hex()))


def settled_with_drains(out):
    """Drains of all in turn, with nothing pending."""
    names = [name for name, _ in settled(out)]
    out.write(b"".join(line("drain", name) for name in names) * IDLE)
