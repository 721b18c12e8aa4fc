"""Generators of random inputs for `mold`, by a seed, for tests/long-run: numbers at the edges of their ranges,
truncated and changed packets and files, and scripts whose events are mostly valid."""
from dataclasses import dataclass

import model

EDGES = [0, 1, 2, 3, 4, 63, 64, 65534, 65535, 65536, (1 << 32) - 1, 1 << 32, (1 << 63) - 1, 1 << 63]
EDGES += [model.GREATEST - it for it in range(4)]
COUNTS = [0, 1, 2, 3, 255, 256, 32743, 65533, 65534, 65535]
LIMITS = [64, 65, 66, 85, 100, 1400, 65507]
WINDOWS = [1, 2, 3, 4, 5, 8, 64, 1024, 65535, 65536]
BURSTS = [1, 2, 3, 63, 64]
NAME = "SESSION001"
# How many sequence numbers above `next` may be filled to bring a listener to its end.
FARTHEST = 70000
FAR = [1023, 1024, 65533, 65534, 65535, 65536, 65537]
# Lines of a script that are not events, or events that are refused.
BAD_EVENTS = [b"", b"publish", b"publish 4", b"publish  ", b"publish", b"request 0g", b"restart 0 +1", b"\xc3\xa9"]
BAD_EVENTS += [b"ask -1", b"ask 18446744073709551615", b"ask 18446744073709551616", b"deliver 0 c 0", b"deliver 0 A 0"]
# The flags of each form of messages in an input or an output. Those of `none` are invalid.
FLAGS = {"lines": [], "blocks": ["--blocks"], "blocks to empty": ["--blocks", "--end-at-empty"]}
FLAGS["none"] = ["--end-at-empty"]
# What a file that a command writes has before, or None if it does not exist.
FORMER = [None, b"", b"what was there before", 999 * b"x"]
# Valid and almost valid texts of option values.
SESSIONS = [NAME, "A", " ", "~", "a=b", "-x", "--to", "ten bytes.", "", "SESSION0012", "é", "a\x1fb", "a\x7f", "a\tb"]
# The first address belongs to no machine, so that no program can bind it.
ADDRESSES = ["192.0.2.1:9", "127.0.0.1:9", "0.0.0.0:0", "255.255.255.255:65535", "1.2.3.4:5", "", "127.0.0.1", ":9"]
ADDRESSES += ["127.0.0.1:", "nowhere:9", "127.0.0.1:09", "127.0.0.01:9", "127.0.01.1:9", "127.00.0.1:9", "0127.0.0.1:9"]
ADDRESSES += ["256.0.0.1:9", "127.0.0.1:65536", "127.0.0.1:4294967305", "127.0.1:9", "1.2.3.4.5:6", "127..0.1:9"]
ADDRESSES += ["127.0.0.1:9 ", " 127.0.0.1:9", "127.0.0.1:+9", "127.0.0.1:-1", "-1.0.0.1:9", "127.0.0.1:9:9", "[::1]:9"]
ADDRESSES += ["127,0,0,1:9", "2130706433:9", "127.0.0.\uff11:9"]
BAD_NUMBERS = ["", "+64", "-1", " 64", "64 ", "0x40", "1e3", "64.0", "\uff16\uff14", "64\u0664", str((1 << 64) + 64)]
BAD_NUMBERS += [str(1 << 64)]
BAD_NUMBERS += ["9" * 20, "0" * 19 + "64", "sixty-four"]


@dataclass
class Case:
    """A call: its options by name, and the items of its input, each a tuple whose last part is bytes."""

    options: dict
    items: list
    # The options as command-line arguments.
    arguments: list

    def form(self):
        """How the input or the output encodes messages: `lines`, `blocks` or `blocks to empty`."""
        return self.options.get("form", "lines")

    def messages(self):
        """The input of a publisher: the items as lines, or joined if they are blocks."""
        return self.lines() if self.form() == "lines" else b"".join(it[-1] for it in self.items)

    def lines(self):
        """The input as lines. The last one may lack its newline."""
        return b"\n".join(it[-1] for it in self.items) + (b"\n" if self.options.get("is_ended", True) else b"")


def has(chance, likelihood):
    return chance.random() < likelihood


def number(chance):
    return chance.choice([chance.choice(EDGES), chance.randint(0, 9), chance.getrandbits(64)])


def session_text(chance):
    if has(chance, 0.7):
        return NAME
    return "".join(chr(chance.randint(0x20, 0x7E)) for _ in range(chance.randint(1, 10)))


def some_session(chance):
    return chance.choice([NAME.encode(), NAME.encode(), b"SESSION002", chance.randbytes(10)])


def message(chance, longest=42):
    size = chance.choice([0, 1, 2, 20, chance.randint(0, 8), chance.randint(0, 42), longest - 1, longest])
    size = min(size, longest)
    return bytes([chance.randrange(256)]) * size if has(chance, 0.5) else chance.randbytes(size)


def digits(chance, some_bytes):
    text = some_bytes.hex()
    if has(chance, 0.8):
        return text.encode()
    return "".join(chance.choice([it, it.upper()]) for it in text).encode()


def damaged(chance, some_bytes):
    """The bytes, truncated, extended, or with one or two bytes changed."""
    way = chance.randrange(4)
    if way == 0:
        return some_bytes[: chance.randint(0, len(some_bytes))]
    if way == 1:
        return some_bytes + chance.randbytes(chance.choice([1, 1, 2, 20]))
    for _ in range(way - 1):
        at = chance.randrange(len(some_bytes) or 1)
        value = chance.choice([0, 1, 254, 255, chance.randrange(256)])
        some_bytes = some_bytes[:at] + bytes([value]) + some_bytes[at + 1 :]
    return some_bytes


def packet(chance, session, sequence):
    kind = chance.choice(["heartbeat", "data", "data", "data", "end"])
    messages = [message(chance) for _ in range(chance.choice([1, 1, 2, 3, 9]))] if kind == "data" else []
    return model.Packet(kind, session, sequence, tuple(messages))


def great_datagram(chance):
    """A datagram that is too large for UDP."""
    messages = chance.choice([65534 * [b""], [bytes(65535)], 3 * [bytes(65534), b"A"], 65533 * [b""]])
    return model.encoding(model.Packet("data", NAME.encode(), number(chance), tuple(messages)))


def datagram(chance):
    if has(chance, 0.002):
        return great_datagram(chance)
    drawn = model.encoding(packet(chance, some_session(chance), number(chance)))
    if has(chance, 0.2):
        drawn = drawn[:18] + chance.choice(COUNTS).to_bytes(2, "big") + drawn[20:]
    return damaged(chance, drawn) if has(chance, 0.4) else drawn


def request(chance, session, top):
    """The bytes of a request to a journal whose last message has the number `top - 1`."""
    sequence = chance.choice([0, 1, top - 1, top, number(chance), chance.randint(1, top)])
    drawn = model.Request(session, max(sequence, 0), chance.choice(COUNTS + [1, 2, 3, 4, 5])).encoding()
    return damaged(chance, drawn) if has(chance, 0.15) else drawn


def spoiled_line(chance, line):
    """The line, changed so that it is not hexadecimal. It contains no newline."""
    foreign = bytes([chance.choice([it for it in range(256) if it != 10])])
    at = chance.randint(0, len(line))
    within = line[:at] + foreign + line[at:]
    return chance.choice([line + b"0", line[1:], within, line + b"\r", b" " + line, b"-", b"\xff", b"0x" + line])


def option_arguments(chance, options):
    """The options as arguments, in any order, with = or without it. Options with their default may be left out."""
    arguments = []
    for name in chance.sample(sorted(options), len(options)):
        value = options[name]
        if value == model.DEFAULTS.get(name) and has(chance, 0.5):
            continue
        text = str(value)
        if isinstance(value, int) and has(chance, 0.2):
            text = text.zfill(chance.randint(1, 20))
        joined = text.startswith("-") or has(chance, 0.3)
        arguments += [f"--{name}={text}"] if joined else [f"--{name}", text]
    return arguments


def case_of(chance, options, items, **others):
    others |= {"is_ended": has(chance, 0.8)}
    return Case(options | others, items, option_arguments(chance, options))


def show(chance):
    is_request = has(chance, 0.3)
    items = []
    for _ in range(chance.choice([1, 1, 3, 20, 60])):
        is_whole = is_request and has(chance, 0.7)
        drawn = request(chance, some_session(chance), 9) if is_whole else datagram(chance)
        line = digits(chance, drawn)
        items.append((spoiled_line(chance, line) if has(chance, 0.1) else b"" if has(chance, 0.03) else line,))
    case = case_of(chance, {}, items, is_request=is_request)
    case.arguments = ["--request"] if is_request else []
    return case


def some_lines(chance, limit, most):
    """Lines of messages. One of them may be invalid."""
    longest = min(limit - 22, 1378 if has(chance, 0.99) else 65485)
    lines = [digits(chance, message(chance, longest)) for _ in range(chance.randint(0, most))]
    if lines and has(chance, 0.25):
        at = chance.randrange(len(lines))
        too_long = digits(chance, bytes(chance.choice([limit - 21, limit - 20, 65536, 2 * limit])))
        lines[at] = chance.choice([spoiled_line(chance, lines[at]), too_long])
    return [(it,) for it in lines]


def some_blocks(chance, limit, most):
    """Message blocks. One of them may be too long, the last one may be cut, and a lone byte may follow it."""
    longest = min(limit - 22, 1378 if has(chance, 0.99) else 65485)
    drawn = [message(chance, longest) for _ in range(chance.randint(0, most))]
    if drawn and has(chance, 0.15):
        drawn[chance.randrange(len(drawn))] = bytes(chance.choice([limit - 21, limit - 20, 65535]))
    items = [len(it).to_bytes(2, "big") + it for it in drawn]
    if items and has(chance, 0.25):
        items[-1] = items[-1][: chance.randrange(len(items[-1]))]
    if has(chance, 0.1):
        items.append(chance.choice([b"\0", b"\0\0", b"\xff", b"\xff\xff\0"]))
    return [(it,) for it in items]


def in_some_form(chance, options, most, forms=("lines", "lines", "blocks", "blocks to empty")):
    """A case with lines, or with blocks and their options."""
    form = chance.choice(forms)
    if form == "lines":
        return case_of(chance, options, some_lines(chance, options["limit"], most))
    case = case_of(chance, options, some_blocks(chance, options["limit"], most), form=form)
    case.arguments += FLAGS[form]
    return case


def pack(chance):
    options = {"session": session_text(chance), "limit": chance.choice(LIMITS + [chance.randint(64, 300)])}
    if has(chance, 0.003):
        # About as many messages as fit in the largest packet.
        options["limit"] = 65507
        return case_of(chance, options, [(b"",)] * chance.randint(32741, 32746))
    case = in_some_form(chance, options, chance.choice([3, 12, 60]))
    case.options["is_saved"] = has(chance, 0.3)
    return case


def publish(chance):
    options = {"session": session_text(chance), "limit": chance.choice([64, 65, 100, 1400])}
    options |= {name: chance.choice([0, 1, 2, 9]) for name in ("beats", "ends")}
    return in_some_form(chance, options, chance.choice([3, 12, 40]))


def loop(chance):
    options = {"session": session_text(chance), "limit": chance.choice([64, 65, 85, 100, 1400])}
    options["server-limit"] = chance.choice([it for it in LIMITS if it >= options["limit"]])
    options |= {"window": chance.choice(WINDOWS), "burst": chance.choice(BURSTS)}
    options |= {name: chance.choice([0, 1, 2, 2, 3, 1000]) for name in ("drop-a", "drop-b")}
    options["turns"] = chance.choice([1, 2, 1000, 1000])
    forms = ("lines", "blocks", "blocks to empty")
    return maybe_reporting(chance, in_some_form(chance, options, chance.choice([3, 12, 40]), forms))


def numbered(chance, value):
    """A number as it may appear in a script."""
    return str(value).zfill(chance.choice([1, 1, 1, 2, 20])).encode()


def bytes_text(chance, some_bytes):
    return digits(chance, some_bytes) or b"-"


def way(chance):
    return chance.choice([b"a", b"b", b"answer"])


def script_line(chance, world):
    """The line of an event. Mostly the world can run it."""
    r = numbered(chance, number(chance) if has(chance, 0.02) else chance.randrange(len(world.views)))
    name = chance.choice(
        ["publish"] * 5 + ["datagram"] * 3 + ["deliver"] * 9 + ["ask", "ask", "request", "heartbeat", "end", "noise"]
        + (["restart", "close"] if has(chance, 0.3) else [])
    )
    if name == "publish":
        longest = world.limit - 22 + (1 if has(chance, 0.03) else 0)
        fields = [bytes_text(chance, message(chance, longest))]
    elif name == "ask":
        fields = [r]
    elif name == "request":
        fields = [bytes_text(chance, request(chance, world.session, len(world.messages) + 1))]
    elif name == "deliver":
        index = chance.randrange(len(world.sent) + (1 if has(chance, 0.05) else 0) or 1)
        fields = [r, way(chance), numbered(chance, number(chance) if has(chance, 0.03) else index)]
    elif name == "noise":
        fields = [r, way(chance), bytes_text(chance, noise(chance, world))]
    elif name == "restart":
        first = chance.randint(0, len(world.messages) + 1)
        fields = [r, numbered(chance, number(chance) if has(chance, 0.2) else first)]
    else:
        fields = []
    return b" ".join([name.encode(), *fields])


def noise(chance, world):
    if world.sent and has(chance, 0.5):
        return damaged(chance, chance.choice(world.sent))
    return datagram(chance)


def other_line(chance, line):
    """A line that is mostly not a valid event."""
    changed = [line + b" ", b" " + line, line + b"\r", line + b" 0", line[:-1], line.upper()]
    changed += [line.replace(b" ", b"  ", 1), line.replace(b" ", b"\t", 1), line.replace(b"0", b"0" * 21, 1)]
    return chance.choice(changed + BAD_EVENTS)


def great_script(chance):
    """A script with about as many messages as one request can ask for."""
    events = ["publish -"] * chance.randint(65533, 65537) + ["datagram"] * 3 + ["heartbeat", "deliver 0 a 3", "ask 0"]
    events += ["deliver 0 answer 6", "ask 0", "deliver 0 answer 4", "ask 0", "deliver 0 b 1", "deliver 0 b 2"]
    return [(it.encode(),) for it in events]


def sim(chance):
    if has(chance, 0.002):
        options = {"session": NAME, "limit": 65507, "server-limit": 65507, "burst": chance.choice([1, 2, 3, 64])}
        options |= {"window": chance.choice([32743, 32744, 65535, 65536]), "receivers": 1}
        return case_of(chance, options, great_script(chance))
    options = {"session": session_text(chance), "limit": chance.choice([64, 64, 65, 85, 100, 1400])}
    options["server-limit"] = chance.choice([it for it in LIMITS if it >= options["limit"]])
    options |= {"window": chance.choice(WINDOWS), "burst": chance.choice(BURSTS)}
    options["receivers"] = chance.choice([1, 1, 2, 3, 8])
    limits = options["limit"], options["server-limit"]
    numbers = options["window"], options["receivers"], options["burst"]
    world = model.make_world(model.padded(options["session"]), limits, *numbers)
    items = []
    for _ in range(chance.choice([5, 30, 120])):
        line = script_line(chance, world)
        if has(chance, 0.05):
            line = other_line(chance, line)
        items.append((line,))
        try:
            model.run_line(world, line)
        except model.Refused:
            pass
    return case_of(chance, options, items)


def captured(chance, session, messages):
    """A datagram of a session with these messages, or one that does not belong to it."""
    top = len(messages) + 1
    first = chance.randint(1, top)
    carried = messages[first - 1 : first - 1 + chance.choice([1, 2, 5, 99])]
    if has(chance, 0.15):
        sequence = chance.choice([first, top, number(chance), model.GREATEST - chance.randrange(3)])
        drawn = model.encoding(packet(chance, session, sequence))
        return damaged(chance, drawn) if has(chance, 0.3) else drawn
    if has(chance, 0.02):
        return datagram(chance)
    if has(chance, 0.08):
        carried = [chance.choice([it, b"another"]) for it in carried]
    if carried and has(chance, 0.8):
        return model.encoding(model.Packet("data", session, first, tuple(carried)))
    return model.encoding(model.Packet("heartbeat", session, first))


def entry_name(chance):
    stem = "".join(chance.choice("abAB.é 01-_\u20ac\U0001f600") for _ in range(chance.randint(0, 6)))
    return stem + chance.choice([".pkt"] * 12 + [".PKT", ".pkt ", "pkt", ".pkt.txt", ""])


def capture(chance):
    """Datagrams that mostly belong to one session."""
    session = chance.choice([NAME.encode(), chance.randbytes(10)])
    messages = [message(chance) for _ in range(chance.choice([0, 1, 3, 12]))]
    datagrams = [captured(chance, session, messages) for _ in range(chance.choice([0, 1, 3, 8]))]
    if has(chance, 0.6):
        datagrams.append(model.encoding(model.Packet("end", session, len(messages) + 1)))
    if messages and has(chance, 0.5):
        datagrams += [model.encoding(it) for it in model.packing(chance.choice([64, 100, 1400]), session, 1, messages)]
    return datagrams


def check(chance):
    entries = {entry_name(chance).encode(): it for it in capture(chance)}
    entries = {name: it for name, it in entries.items() if name not in (b"", b".", b"..")}
    return Case({"folders": ["sub"] if has(chance, 0.1) else []}, list(entries.items()), [])


def check_lines(chance):
    lines = [digits(chance, it) for it in capture(chance)]
    lines = [spoiled_line(chance, it) if has(chance, 0.03) else b"" if has(chance, 0.05) else it for it in lines]
    return case_of(chance, {}, [(it,) for it in lines])


def file(chance):
    """A journal file, often valid."""
    longest = chance.choice([42, 42, 43, 60])
    messages = [message(chance, longest) for _ in range(chance.choice([0, 1, 2, 9, 9, 400]))]
    if has(chance, 0.02):
        messages.append(bytes(chance.choice([4096, 65534, 65535])))
    session = chance.choice([NAME.encode(), chance.randbytes(10)])
    if has(chance, 0.3):
        drawn = model.old_journal_file(session, messages)
    elif has(chance, 0.5):
        rest = chance.choice([b"\0", b"\2", b"7", b"\0\1\0\0", b"\xff\xff"])
        drawn = model.record_file(session, messages, has(chance, 0.5), rest)
    else:
        drawn = model.journal_file(session, messages, has(chance, 0.5))
        if has(chance, 0.1):
            drawn = drawn[:19] + number(chance).to_bytes(8, "big") + drawn[27:]
        if has(chance, 0.03):
            drawn = drawn[:18] + chance.randbytes(1) + drawn[19:]
    return damaged(chance, drawn) if has(chance, 0.5) else drawn


def upgrade(chance):
    others = {"close": has(chance, 0.5), "former": chance.choice(FORMER)}
    return Case(others, [(file(chance),)], ["--close"] if others["close"] else [])


def number_range(chance):
    """The options of a range of messages, each of which may be left out, and the range: a first number and a count."""
    first, count = [1, 1, 2, 3, 9, max(1, number(chance))], [0, 1, 2, 5, number(chance), model.GREATEST]
    drawn = {"from": chance.choice(first), "count": chance.choice(count)}
    options = {name: value for name, value in drawn.items() if has(chance, 0.6)}
    return options, {name: options.get(name, model.DEFAULTS[name]) for name in drawn}


def dump(chance):
    options, given = number_range(chance)
    form = chance.choice(["lines", "blocks", "blocks to empty"])
    arguments = option_arguments(chance, options) + FLAGS[form]
    return Case(given | {"form": form}, [(file(chance),)], arguments)


def maybe_live(chance, case):
    """The case, perhaps with --live, which does not change the text."""
    if has(chance, 0.3):
        case.arguments.append("--live")
    return case


def maybe_reporting(chance, case):
    """The case, perhaps with --report."""
    if has(chance, 0.5):
        case.arguments.append("--report")
    return case


def serve(chance):
    options = {"limit": chance.choice([64, 65, 100, 1400, 65507]), "burst": chance.choice(BURSTS)}
    drawn = file(chance)
    while len(drawn) > 3000:
        drawn = file(chance)
    sessions, top = [drawn[8:18]] * 9 + [NAME.encode()], chance.choice([1, 2, 3, 10])
    requests = [(request(chance, chance.choice(sessions), top),) for _ in range(chance.randint(1, 8))]
    return maybe_live(chance, case_of(chance, options, requests, file=drawn))


def view_after(view, way, datagram):
    """The view of a listener after a datagram, or None if the datagram is not sent to it. That is so if the listener
    has finished, if it did not request a response, or if its end would then be too far away to reach."""
    now = model.take(view, datagram, [])
    is_taken = not view.is_finished() and (way != b"answer" or view.wanted())
    return now if is_taken and now.known <= now.next + FARTHEST else None


def text_of_value(chance, name):
    """A text for the value of an option, mostly valid."""
    kind = model.VALUES[name]
    if kind == model.NAME:
        return chance.choice(["none", "nothing", "not there"])
    texts = {"session": SESSIONS, model.ADDRESS: ADDRESSES}.get(kind, BAD_NUMBERS)
    if has(chance, 0.1):
        return chance.choice(texts)
    if not isinstance(kind, tuple):
        return texts[0]
    least, most = kind
    off = least - 1 if least and has(chance, 0.5) else most + 1
    good = str(chance.choice([least, most, least + 1, most - 1, chance.randint(least, most)]))
    return str(off) if has(chance, 0.05) else good.zfill(chance.choice([1, 1, 20]))


def words(chance):
    """Arguments for the options of a command. A required option may be missing, and a foreign option may be present."""
    command = chance.choice(sorted(model.COMMANDS))
    names = [it for it in model.COMMANDS[command].split() if model.is_required(command, it) or has(chance, 0.6)]
    if has(chance, 0.05):
        names.remove(chance.choice(names))
    if has(chance, 0.05):
        names.append(chance.choice(sorted(set(model.VALUES) - set(names))))
    values = {name: text_of_value(chance, name) for name in chance.sample(names, len(names))}
    drawn = []
    for name, text in values.items():
        joined = text[:1] in ("-", "") or has(chance, 0.4)
        drawn += [f"--{name}={text}"] if joined else [f"--{name}", text]
    if command in ("listen", "loop") and has(chance, 0.3):
        drawn.append("--report")
    form = "lines"
    if command in ("pack", "publish", "listen", "loop", "dump"):
        form = chance.choice(sorted(FLAGS))
    drawn += FLAGS[form]
    return Case({"command": command, "values": values, "form": form}, [], drawn)


def listen(chance):
    """Datagrams of two lines and of responses. Some of them no publisher sends."""
    options = {"session": session_text(chance), "next": chance.choice([1, 1, 1, 2, 65534, (1 << 63) - 1])}
    options |= {"window": chance.choice(WINDOWS), "burst": chance.choice(BURSTS)}
    session = model.padded(options["session"])
    view, items = model.fresh(session, options["next"], options["window"]), []
    for _ in range(chance.choice([1, 4, 12])):
        sequence = chance.choice([view.next, view.next, view.known])
        sequence += chance.choice(FAR) if has(chance, 0.01) else chance.choice([-2, -1, 0, 0, 0, 1, 2, 3, 60])
        if has(chance, 0.05) or not 0 <= sequence <= model.GREATEST:
            sequence = chance.choice([0, model.GREATEST])
        drawn = model.encoding(packet(chance, session if has(chance, 0.95) else some_session(chance), sequence))
        drawn = damaged(chance, drawn) if has(chance, 0.1) else drawn
        items.append((chance.choice([b"a", b"a", b"b", b"b", b"answer"]), drawn))
        view = view_after(view, *items[-1]) or view
    form = chance.choice(["lines", "blocks", "blocks to empty"])
    case = case_of(chance, options, items, form=form)
    case.arguments += FLAGS[form]
    return maybe_reporting(chance, maybe_live(chance, case))
