#!/usr/bin/env -S python3 -B
"""Compares what tshark shows of a capture by tools/doom.lua with what the crates read of the same bytes.

    compare.py show CAPTURE PROGRAM [--ports PORTS]     with what `PROGRAM show` prints of each datagram
    compare.py told CAPTURE LINES [--ports PORTS]       with the lines of main.rt.in, one for each datagram

Without --ports the datagrams are on ports of others: those with which something is wrong must not be taken for
a netgame's, and all others must be shown as ever. It prints how many datagrams of each kind there were, and
ends with status 1 at the first that differs.
"""
import argparse
import collections
import dataclasses
import functools
import subprocess
import sys

FAULTS = ["doom.short", "doom.many", "doom.length", "doom.sum"]
PACKET = ["doom.flags", "doom.ask", "doom.start", "doom.player", "doom.count", "doom.checksum.status"]
COMMAND = ["doom.cmd." + name for name in ("tic", "forward", "side", "turn", "mark", "chat", "buttons")]
FLAGS = ["doom.flags." + name for name in ("kill", "setup", "retransmit", "exit")]
BUTTONS = ["doom.cmd.buttons." + name for name in ("attack", "use", "change", "weapon")]
SETUP = ["doom.setup." + name for name in
         ("version", "skill", "respawn", "nomonsters", "deathmatch", "map", "episode")]
EXACT = ["doom.exact." + name for name in ("start", "asked", "ask")]
SEAL = ["doom_seal." + name for name in ("suite", "kind", "from", "to")]
LINK = ["doom_link." + name for name in
        ("number", "lead", "holes", "cause", "made", "echo", "got", "report", "parts", "part.run", "part.player",
         "part.length")]
REPORT = ["doom_report." + name for name in
          ("gone", "gone.player0", "gone.player1", "gone.player2", "gone.player3", "left", "player", "count",
           "last")]
GREETING = ["doom_greeting." + name for name in
            ("suite", "kind", "name", "version", "what", "number", "count", "cookie", "seat", "players",
             "identity", "called", "zeros", "host", "begun", "extra", "ahead", "rate", "limit", "skill",
             "deathmatch", "nomonsters", "respawn", "episode", "map", "policy", "seconds", "own", "holder.held",
             "holder.number", "holder.address", "holder.called", "reason", "hint", "tag")]
BYTES = ["doom_seal.tag", "doom_seal.game"]
BYTES += ["doom_greeting." + name for name in
          ("name", "number", "cookie", "identity", "called", "zeros", "host", "own", "holder.number",
           "holder.address", "holder.called", "tag")]
SEAL_FAULTS = ["doom_seal.unlike", "doom_seal.refused", "doom_report.none", "doom_greeting.refused"]
FIELDS = (FAULTS + PACKET + COMMAND + FLAGS + BUTTONS + SETUP + EXACT + SEAL + LINK + REPORT + GREETING
          + SEAL_FAULTS + ["doom.checksum", "doom.checksum.calculated", "doom.retransmit"]
          + ["doom_seal.tag", "doom_seal.game"])
NAMES = ["doom." + name for name in ("flags", "ask", "start", "player", "count")]
PROTOCOLS = {"packet": "DOOM_SEAL", "link": "DOOM_LINK", "greeting": "DOOM_GREETING"}
CAUSES = ["plays", "quit", "full demo", "world differs", "has given up the receiver", "probe"]
REASONS = ["the cookie is not good", "no seat is to be had", "the game has begun", "another number of players",
           "another identity", "turned away"]
SHOWN = {"dropped 1 short": "doom.short", "dropped 2 many": "doom.many", "dropped 3 length": "doom.length",
         "dropped 4 sum": "doom.sum"}
LOADED = "tools/doom.lua"


def value(field, word):
    """A field's value as a number, or as its bytes."""
    if field in BYTES:
        return word
    return int(word == "True") if word in ("True", "False") else int(word, 0)


def shown(capture, ports):
    """The bytes of each datagram of a capture, and the values of each field that tshark shows of it."""
    command = ["tshark", "-X", "lua_script:" + LOADED, "-o", f"doom.ports:{ports or '9'}", "-r", capture]
    command += ["-T", "fields", "-E", "separator=|", "-E", "aggregator= ", "-E", "occurrence=a"]
    for field in ["udp.payload", "_ws.col.Protocol", "_ws.col.Info", "_ws.lua.error"] + FIELDS:
        command += ["-e", field]
    done = subprocess.run(command, capture_output=True, text=True, check=True)
    told = [line for line in done.stderr.splitlines() if not line.startswith("Running as user")]
    if told:
        sys.exit(f"wireshark: tshark says {told}")
    for line in done.stdout.splitlines():
        payload, protocol, info, error, *words = line.split("|")
        if error:
            sys.exit(f"wireshark: an error in the dissector: {error}: {payload}")
        found = {}
        for field, word in zip(FIELDS, words, strict=True):
            if word and field in FAULTS + SEAL_FAULTS + ["doom.retransmit"]:
                found[field] = True
            elif word:
                found[field] = [value(field, one) for one in word.split(" ")]
        check_sums(payload, found)
        yield bytes.fromhex(payload), protocol, info, found


def check_sums(payload, found):
    """Calculated sums must be those of the datagrams where the status is good, and others where it is bad."""
    sums, calculated = found.pop("doom.checksum", []), found.pop("doom.checksum.calculated", [])
    judged = [(one, status) for one, status in zip(sums, found.get("doom.checksum.status", []), strict=True)
              if status != 2]
    for (one, status), other in zip(judged, calculated, strict=True):
        if (one == other) != (status == 1):
            sys.exit(f"wireshark: a sum of {other}, and {one} stands there: {payload}")


def with_bits(wanted):
    """Adds the bits of flags and buttons, and the fields of a set-up packet, to what was read of a datagram."""
    for bit, field in enumerate(FLAGS):
        wanted[field] = [flags >> bit & 1 for flags in wanted.get("doom.flags", [])]
    for field, mask, unit in zip(BUTTONS, (1, 2, 4, 56), (1, 2, 4, 8), strict=True):
        wanted[field] = [(buttons & mask) // unit for buttons in wanted.get("doom.cmd.buttons", [])]
    for flags, ask, start, player in zip(*(wanted.get(name, []) for name in NAMES[:4])):
        if flags & 2:
            parts = (player, ask & 15, ask >> 4 & 1, ask >> 5 & 1, ask >> 6, start & 63, start >> 6)
            for field, part in zip(SETUP, parts, strict=True):
                wanted.setdefault(field, []).append(part)
        elif flags & 4:
            wanted["doom.retransmit"] = True
    return {field: values for field, values in wanted.items() if values}


@functools.cache
def printed_by(program, payload):
    """The lines that the program prints of a datagram."""
    return subprocess.run([program, "show"], input=payload, capture_output=True).stdout.decode().splitlines()


def shown_by(program, payload):
    """What the program prints of a datagram, as fields."""
    lines = printed_by(program, payload)
    if lines[0] in SHOWN:
        return {SHOWN[lines[0]]: True}
    words = lines[0].split()
    assert words[::2] == [name.split(".")[1] for name in NAMES], lines[0]
    wanted = collections.defaultdict(list, {name: [int(word)] for name, word in zip(NAMES, words[1::2])})
    wanted["doom.checksum.status"] = [1]
    for number, line in enumerate(lines[1:]):
        words = line.split()
        assert words[:2] == ["cmd", str(number)], line
        assert words[2::2] == [name.split(".")[2] for name in COMMAND[1:]], line
        wanted["doom.cmd.tic"].append((wanted["doom.start"][0] + number) % 256)
        for name, word in zip(COMMAND[1:], words[3::2], strict=True):
            wanted[name].append(int(word))
    return with_bits(dict(wanted))


def info_of(wanted):
    """The words of the Info column, of a datagram with nothing in front of it."""
    flags, ask, start, player, count = (wanted[name][0] for name in NAMES)
    if flags & 2:
        words = f"SETUP version {player} episode {start >> 6} map {start & 63} skill {ask & 15}"
    else:
        last = (start + count - 1) % 256
        words = f"player {player}: " + ("no commands", f"tic {start}", f"tics {start}-{last}")[min(count, 2)]
        words += f", RETRANSMIT from {ask}" if flags & 4 else ""
    words += ", EXIT" if flags & 8 else ""
    return words + (", KILL" if flags & 1 else "")


def fail(payload, found, wanted):
    for field in sorted(set(found) | set(wanted)):
        if found.get(field) != wanted.get(field):
            print(f"{field} is {found.get(field)}, and not {wanted.get(field)}")
    sys.exit(f"wireshark: not as the crates read it: {payload.hex()}")


def compare_shown(args):
    """Datagrams of 1997 against the program."""
    counts = collections.Counter()
    for payload, protocol, info, found in shown(args.capture, args.ports):
        wanted = shown_by(args.program, payload)
        refused = [field for field in FAULTS if field in wanted]
        if refused and not args.ports:
            wanted = {}
            if protocol.startswith("DOOM"):
                fail(payload, {"protocol": protocol}, wanted)
        elif refused:
            # what the fields of such bytes are, no crate says, but whether the sum is wrong
            found = {field: found[field] for field in FAULTS + ["doom.checksum.status"] if field in found}
            if refused != ["doom.short"]:
                wanted["doom.checksum.status"] = [0 if refused == ["doom.sum"] else 2]
            if not info.endswith(f"refused, {refused[0].split('.')[1]}"):
                fail(payload, {"info": info}, {"info": refused})
        elif info != info_of(wanted) or protocol != "DOOM":
            fail(payload, {"info": info}, {"info": info_of(wanted)})
        if found != wanted:
            fail(payload, found, wanted)
        counts["datagrams"] += 1
        if refused:
            counts[refused[0].split(".")[1]] += 1
        for flag in FLAGS + ["doom.retransmit"]:
            counts[flag.split(".")[-1]] += wanted.get(flag) in ([1], True)
        counts["commands"] += wanted.get("doom.count", [0])[0]
    return counts


@dataclasses.dataclass
class Told:
    """A line of main.rt.in: the bytes, their kind, why they are refused, if they are, why what stands in the
    place of a report is none, if it is, whether the bytes of a packet in them are none, and the fields that it
    says."""
    payload: bytes
    kind: str
    refused: str
    unreported: str
    is_inner: bool
    wanted: dict


def bytes_in(word):
    """The bytes of a list of numbers."""
    return bytes(int(one) for one in word.split(",") if one)


def told(line):
    """What a line of main.rt.in says."""
    numbers, words = line.split("|")
    kind, *words = words.split()
    wanted, refused, unreported, is_inner = collections.defaultdict(list), "", "", False
    for word in words:
        field, sign, word = word.partition("=")
        if field == "refused":
            refused = word
        elif field == "unreported":
            unreported, wanted["doom_report.none"] = word, True
        elif not sign:
            assert field == "inner", line
            is_inner = True
        elif field in BYTES:
            wanted[field].append(bytes_in(word).hex())
        elif field in FAULTS + SEAL_FAULTS:
            wanted[field] = True
        else:
            wanted[field].append(int(word))
    return Told(bytes_in(numbers), kind, refused, unreported, is_inner, with_bits(dict(wanted)))


def with_frame(line):
    """The fields that a line says, and those that it leaves to the bytes."""
    wanted, payload = dict(line.wanted), line.payload
    if line.kind != "greeting":
        return wanted | {"doom_seal.tag": [payload[-16:].hex()], "doom_seal.game": [payload[2:10].hex()]}
    wanted |= {"doom_greeting.kind": [4], "doom_greeting.name": ["zirmegat"]}
    if wanted["doom_greeting.what"] == [1]:
        wanted["doom_greeting.zeros"] = ["00" * 483]
    if wanted["doom_greeting.what"] != [4]:
        wanted["doom_greeting.tag"] = [payload[-16:].hex()]
    return wanted


def report_info(line, wanted):
    """The words of a report in the Info column."""
    if line.unreported:
        return f"no report, {line.unreported}"
    gone = [f" {player}" for player in range(4) if wanted[f"doom_report.gone.player{player}"] == [1]]
    words = "given up" + ("".join(gone) or " nobody") + (", left" if wanted["doom_report.left"] == [1] else "")
    for player, count in zip(wanted.get("doom_report.player", []), wanted.get("doom_report.count", [])):
        words += f"; has {count} of player {player}"
    return words


def link_info(line, wanted):
    """The words of a link's datagram in the Info column, up to its parts."""
    number, cause, made, echo, size = (wanted["doom_link." + name][0]
                                      for name in ("number", "cause", "made", "echo", "report"))
    words = f"number {number}, {CAUSES[cause]}, made {made}, echo {echo}"
    return words + ("; " + report_info(line, wanted) if size else "")


def greeting_info(wanted):
    """The words of a greeting in the Info column."""
    said = {field.split(".", 1)[1]: values[0] for field, values in wanted.items() if field in GREETING}
    if said["what"] == 4:
        return ["hint, another suite or key", f"hint, another version: {said['version']}"][said["hint"] - 1]
    if said["what"] == 3:
        players = f": {said['players']}" if said["reason"] == 4 else ""
        return f"refusal {said['count']}, {REASONS[said['reason'] - 1]}{players}"
    words = f"{['call', 'seating'][said['what'] - 1]} {said['count']}"
    words += "".join(f", {name} {said[name]}" for name in ("seat", "players") if said[name])
    return words + (", begun" if said.get("begun") else "")


def is_wrong(line):
    """Whether something is wrong with bytes, so that they are not taken for a netgame's on ports of others."""
    if line.refused or line.kind == "greeting":
        return line.refused != ""
    is_dropped = line.kind == "packet" and (line.is_inner or "doom_seal.unlike" in line.wanted)
    return is_dropped or line.payload[10] > 3 or line.payload[11] > 3


def is_taken(payload):
    """Whether bytes are taken for a greeting, right or not."""
    return len(payload) > 9 and payload[1] == 4 and (payload[2:10] == b"zirmegat" or payload[0] < 3)


def check_refused(line, protocol, info, found):
    """Bytes that the crates refuse: what their fields are, no crate says."""
    if line.kind == "greeting" and not is_taken(line.payload):
        if protocol == PROTOCOLS["greeting"] or "refused" not in info:
            fail(line.payload, {"info": info}, {"info": "refused"})
        return
    field = "doom_greeting.refused" if line.kind == "greeting" else "doom_seal.refused"
    if field not in found or not info.endswith(f"refused, {line.refused}") or protocol != PROTOCOLS[line.kind]:
        fail(line.payload, {"info": info, "protocol": protocol}, {"info": f"refused, {line.refused}"})


def check_opened(line, protocol, info, found):
    """Bytes that the crates open."""
    payload, wanted = line.payload, with_frame(line)
    if line.is_inner:
        # the fields of a packet that is none are no crate's
        drop = set(PACKET + COMMAND + FLAGS + BUTTONS + SETUP + ["doom.retransmit"])
        found = {field: values for field, values in found.items() if field not in drop}
        wanted = {field: values for field, values in wanted.items() if field not in drop}
    if found != wanted:
        fail(payload, found, wanted)
    if protocol != PROTOCOLS[line.kind]:
        fail(payload, {"protocol": protocol}, {"protocol": PROTOCOLS[line.kind]})
    words = f"{payload[10]} > {payload[11]}: " if line.kind != "greeting" else greeting_info(wanted)
    words += link_info(line, wanted) if line.kind == "link" else ""
    is_whole = line.kind != "greeting" or info == words
    if not info.startswith(words) or not is_whole or ("refused" in info) != line.is_inner:
        fail(payload, {"info": info}, {"info": words})


def compare_told(args):
    """Envelopes, datagrams of links and greetings against what the crates read."""
    counts = collections.Counter()
    with open(args.lines) as file:
        lines = [told(line) for line in file]
    for (payload, protocol, info, found), line in zip(shown(args.capture, args.ports), lines, strict=True):
        assert payload == line.payload
        counts[line.kind] += 1
        counts["datagrams"] += 1
        counts["unlike"] += "doom_seal.unlike" in line.wanted
        counts["report"] += "doom_report.gone" in line.wanted
        if line.unreported:
            counts[f"no report for {line.unreported}:"] += 1
        counts["refused" if line.refused else "inner" if line.is_inner else "opened"] += 1
        if line.refused:
            counts[f"{line.kind} refused for {line.refused}:"] += 1
        if is_wrong(line) and not args.ports:
            if found or protocol.startswith("DOOM"):
                fail(payload, found, {})
        elif line.refused:
            check_refused(line, protocol, info, found)
        else:
            check_opened(line, protocol, info, found)
    return counts


parser = argparse.ArgumentParser()
parser.add_argument("kind", choices=["show", "told"])
parser.add_argument("capture")
parser.add_argument("against")
parser.add_argument("--ports")
args = parser.parse_args()
args.program = args.lines = args.against
counts = compare_shown(args) if args.kind == "show" else compare_told(args)
print(" ".join(f"{name} {count}" for name, count in sorted(counts.items())))
