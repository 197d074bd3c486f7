"""Lines and replies of the exchange as Python values, for the scripts beside this file; docs/FORMATS.md has both formats.

A line is a dictionary with its number, its text and, where the text is one of the grammar's, its word and parts. A reply is a
dictionary with the number, the line, the head and the details; `reply_text` gives its text again.
"""
import ipaddress
import sys

# the parts behind each word: n is a number, t a token, h octets in hexadecimal, r the rest of the line
LINES = {
    "exchange": (("base", "t"), ("size", "n"), ("capacity", "n")),
    "participant": (("name", "t"), ("as", "n"), ("id", "t")),
    "port": (("name", "t"), ("port", "n"), ("address", "t"), ("mac", "t")),
    "update": (("name", "t"), ("octets", "h")),
    "down": (("name", "t"),),
    "export": (("name", "t"), ("rules", "r")),
    "out": (("name", "t"), ("policy", "r")),
    "in": (("name", "t"), ("policy", "r")),
    "take": (("name", "t"), ("count", "n")),
    "drain": (("name", "t"),),
    "arp": (("port", "n"), ("octets", "h")),
    "resolve": (("port", "n"),),
    "packet": (("port", "n"), ("octets", "h")),
    "frame": (("port", "n"), ("octets", "h")),
    "recompile": (),
    "work": (("units", "n"),),
    "table": (),
}
# what follows each refusal's word
REFUSALS = {
    "line": (), "misplaced": (), "unknown": (), "clash": (), "full": (), "update": (("fault", "t"),), "first-as": (),
    "next-hop": (), "oversize": (), "too-long": (), "syntax": (("at", "n"),), "too-deep": (("at", "n"),),
    "policy": (("fault", "t"), ("start", "n"), ("end", "n")), "too-wide": (), "no-next-hop": (("need", "n"), ("free", "n")),
    "table-full": (("rules", "n"), ("capacity", "n")), "packet": (),
}
HEADS = {"ok": (), "working": (("units", "n"),), "done": (), "unrouted": (), "unresolved": (("address", "t"),), "silent": ()}
DETAILS = {
    "tag": (("prefix", "t"), ("tag", "n")), "untag": (("prefix", "t"),), "drop": (("port", "n"), ("tag", "n")),
    "add": (("port", "n"), ("tag", "n"), ("rule", "r")), "flow": (("port", "n"), ("tag", "n"), ("rule", "r")),
    "advert": (("octets", "h"),), "ask": (("octets", "h"),), "reply": (("octets", "h"),),
    "out": (("port", "n"), ("octets", "h")),
}
NUMBERS = ("port", "proto", "srcport", "dstport")


def parts_of(words, shape):
    """The parts by name, or None where the words haven't this shape."""
    if shape and shape[-1][1] == "r":
        words = words[: len(shape) - 1] + [" ".join(words[len(shape) - 1:])]
    if len(words) != len(shape) or not all(words):
        return None
    parts = {}
    for word, (name, kind) in zip(words, shape):
        if kind == "n" and not (word.isascii() and word.isdigit()):
            return None
        if kind == "h" and (len(word) % 2 or set(word.lower()) - set("0123456789abcdef")):
            return None
        parts[name] = int(word) if kind == "n" else word.lower() if kind == "h" else word
    return parts


def fields_of(text):
    """`srcip=10.0.0.0/8,dstport=80` as a dictionary."""
    pairs = (field.split("=") for field in text.split(","))
    return {name: int(value) if name in NUMBERS else value for name, value in pairs}


def fields_text(fields):
    return ",".join(f"{name}={value}" for name, value in fields.items())


def rule_of(text):
    """`dstport=80 -> 2[srcip=1.2.3.4] + 3`: what it matches, and its actions."""
    match, actions = text.split(" -> ")
    found = []
    for action in [] if actions == "none" else actions.split(" + "):
        port, _, sets = action.partition("[")
        found.append({"port": int(port), "set": fields_of(sets[:-1]) if sets else {}})
    return {"match": {} if match == "*" else fields_of(match), "actions": found}


def rule_text(rule):
    actions = [f"{a['port']}[{fields_text(a['set'])}]" if a["set"] else str(a["port"]) for a in rule["actions"]]
    return f"{fields_text(rule['match']) or '*'} -> {' + '.join(actions) or 'none'}"


def detail_of(text):
    word, *words = text[2:].split(" ")
    parts = parts_of(words, DETAILS[word])
    if "rule" in parts:
        parts.update(rule_of(parts.pop("rule")))
    return {"detail": word, **parts}


def detail_text(detail):
    shape = DETAILS[detail["detail"]]
    parts = [rule_text(detail) if name == "rule" else str(detail[name]) for name, _ in shape]
    return "  " + " ".join([detail["detail"], *parts])


def head_of(words):
    if words[0] == "refused":
        return {"word": "refused", "cause": words[1], **parts_of(words[2:], REFUSALS[words[1]])}
    return {"word": words[0], **parts_of(words[1:], HEADS[words[0]])}


def head_text(head):
    shape = REFUSALS[head["cause"]] if head["word"] == "refused" else HEADS[head["word"]]
    return " ".join([head["word"], *([head["cause"]] if head["word"] == "refused" else []), *(str(head[name]) for name, _ in shape)])


def reply_text(reply):
    """The head line and the detail lines again."""
    details = "".join(detail_text(detail) + "\n" for detail in reply["details"])
    return f"{reply['number']} {head_text(reply['head'])}\n{details}"


def read_lines(octets):
    """The lines by number, without those that are skipped."""
    lines = {}
    for number, octets_of_line in enumerate(octets.split(b"\n"), 1):
        text = octets_of_line.decode("utf-8", "backslashreplace")
        if (text and not text.startswith("#")) or len(octets_of_line) > 20000:
            word, *words = text.split(" ")
            parts = parts_of(words, LINES[word]) if word in LINES else None
            lines[number] = {"number": number, "text": text} | ({} if parts is None else {"word": word, **parts})
    return lines


def read_replies(octets, lines):
    """The replies in their order, each with its line."""
    replies = []
    for text in octets.decode("ascii").splitlines():
        if text.startswith("  "):
            replies[-1]["details"].append(detail_of(text))
        else:
            number, *words = text.split(" ")
            if int(number) not in lines:
                sys.exit(f"the input has no line {number} to which there is a reply")
            replies.append({"number": int(number), "line": lines[int(number)], "head": head_of(words), "details": []})
    return replies


def read_run(lines_path, replies_path):
    with open(lines_path, "rb") as file:
        lines = read_lines(file.read())
    with open(replies_path, "rb") as file:
        return read_replies(file.read(), lines)


def is_accepted(reply):
    return reply["head"]["word"] != "refused"


def numbers_of(octets, size):
    return [int.from_bytes(octets[at:at + size], "big") for at in range(0, len(octets), size)]


def prefixes_of(octets):
    prefixes, at = [], 0
    while at < len(octets):
        size = (octets[at] + 7) // 8
        address = octets[at + 1:at + 1 + size].ljust(4, b"\0")
        network = ipaddress.ip_network((address, octets[at]), strict=False)
        prefixes.append(str(network))
        at += 1 + size
    return prefixes


def path_of(octets, size):
    """The segments of AS_PATH (numbers of two octets) or AS4_PATH (four)."""
    segments, at = [], 0
    while at < len(octets):
        end = at + 2 + size * octets[at + 1]
        segments.append({"kind": {1: "set", 2: "sequence"}[octets[at]], "as": numbers_of(octets[at + 2:end], size)})
        at = end
    return segments


def wide_path_of(value):
    """The segments of AS4_PATH, or the octets where they are none, which is no fault."""
    try:
        return path_of(value, 4)
    except (IndexError, KeyError):
        return value.hex()


def attribute_of(kind, value):
    """The name and the value of one attribute."""
    readers = {
        1: ("origin", lambda: ("igp", "egp", "incomplete")[value[0]]),
        2: ("as_path", lambda: path_of(value, 2)),
        3: ("next_hop", lambda: str(ipaddress.ip_address(value))),
        4: ("multi_exit_disc", lambda: int.from_bytes(value, "big")),
        5: ("local_pref", lambda: int.from_bytes(value, "big")),
        6: ("atomic_aggregate", lambda: True),
        7: ("aggregator", lambda: {"as": int.from_bytes(value[:2], "big"), "address": str(ipaddress.ip_address(value[2:]))}),
        8: ("communities", lambda: [f"{n >> 16}:{n & 65535}" for n in numbers_of(value, 4)]),
        17: ("as4_path", lambda: wide_path_of(value)),
    }
    name, read = readers.get(kind, (f"attribute_{kind}", value.hex))
    return name, read()


def update_of(octets):
    """What a well-formed UPDATE message says."""
    withdrawn_end = 21 + int.from_bytes(octets[19:21], "big")
    at = withdrawn_end + 2
    end = at + int.from_bytes(octets[withdrawn_end:at], "big")
    update = {"withdrawn": prefixes_of(octets[21:withdrawn_end]), "announced": prefixes_of(octets[end:])}
    while at < end:
        size = 2 if octets[at] & 0x10 else 1
        value = at + 2 + size
        behind = value + int.from_bytes(octets[at + 2:value], "big")
        name, said = attribute_of(octets[at + 1], octets[value:behind])
        update[name] = said
        at = behind
    return update
