"""An independent model of the output of `mold`. It was written only from docs/PROTOCOL.md and docs/FORMATS.md, and
works on whole lists of messages and datagrams. `tests/mutations` and `tests/long-run` compare the program with it.

Each command is a function of its options and its whole input. It returns the text, the status, and then other results,
such as a file or datagrams. Internally a refusal is an exception with the text to print.
"""
import binascii
import re
from bisect import bisect_right
from dataclasses import dataclass, field
from itertools import accumulate

GREATEST = (1 << 64) - 1
HEADER = 20
COUNT_OF_AN_END = 65535
LARGEST_REQUEST = 65534


class Refused(Exception):
    """A refusal, with the text to print."""


# Packets and requests.


@dataclass(frozen=True)
class Packet:
    """A packet of the kind heartbeat, data or end."""

    kind: str
    session: bytes
    sequence: int
    messages: tuple = ()

    def top(self):
        return self.sequence + len(self.messages)

    def carried(self):
        return dict(enumerate(self.messages, self.sequence))


def number_in(some_bytes):
    return int.from_bytes(some_bytes, "big")


def block(message):
    return len(message).to_bytes(2, "big") + message


def blocks(messages):
    return b"".join(block(it) for it in messages)


def header(session, sequence, count):
    return session + sequence.to_bytes(8, "big") + count.to_bytes(2, "big")


def encoding(packet):
    """The datagram that encodes a packet."""
    count = COUNT_OF_AN_END if packet.kind == "end" else len(packet.messages)
    return header(packet.session, packet.sequence, count) + blocks(packet.messages)


def whole_blocks(some_bytes, most=GREATEST):
    """The messages of the complete blocks at the start of the bytes, at most `most`, and the size of these blocks."""
    messages, at = [], 0
    while len(messages) < most and len(some_bytes) - at >= 2:
        end = at + 2 + number_in(some_bytes[at : at + 2])
        if end > len(some_bytes):
            break
        messages.append(some_bytes[at + 2 : end])
        at = end
    return messages, at


def packet_of(datagram):
    if len(datagram) < HEADER:
        raise Refused(f"Short {len(datagram)}")
    count = number_in(datagram[18:20])
    kind = {0: "heartbeat", COUNT_OF_AN_END: "end"}.get(count, "data")
    stated = count if kind == "data" else 0
    messages, size = whole_blocks(datagram[HEADER:], stated)
    if len(messages) < stated:
        raise Refused(f"BlockCut {len(messages)}")
    if len(datagram) > HEADER + size:
        raise Refused(f"Trailing {HEADER + size}")
    return Packet(kind, datagram[:10], number_in(datagram[10:18]), tuple(messages))


@dataclass(frozen=True)
class Request:
    session: bytes
    sequence: int
    count: int

    def encoding(self):
        return header(self.session, self.sequence, self.count)


def request_of(datagram):
    if len(datagram) != HEADER:
        raise Refused(f"RequestLength {len(datagram)}")
    return Request(datagram[:10], number_in(datagram[10:18]), number_in(datagram[18:20]))


# Lines of text.


def lines_of(some_bytes):
    lines = some_bytes.split(b"\n")
    return lines if lines[-1] else lines[:-1]


def bytes_of(digits):
    """The bytes that hexadecimal digits denote."""
    try:
        return binascii.unhexlify(digits)
    except ValueError:
        raise Refused("NotHex") from None


def text_of(lines):
    return "".join(f"{it}\n" for it in lines).encode()


def printed_message(message):
    return message.hex() or "-"


def padded(session):
    """The session for the text of an option, padded with spaces."""
    return session.encode().ljust(10)


# Command-line arguments.

LIMIT, NAME, ADDRESS = (64, 65507), "name", "address"
# The range of each option's value, or the kind of the value.
VALUES = {"session": "session", "limit": LIMIT, "server-limit": LIMIT, "window": (1, 65536), "receivers": (1, 8)}
VALUES |= {"next": (1, (1 << 63) - 1), "turns": (1, 1000000), "beats": (0, 1000), "ends": (0, 1000), "burst": (1, 64)}
VALUES |= {"drop-a": (0, 1000), "drop-b": (0, 1000), "a": ADDRESS, "b": ADDRESS, "server": ADDRESS, "bind": ADDRESS}
VALUES |= {"journal": NAME, "to": NAME, "from": (1, (1 << 64) - 1), "count": (0, (1 << 64) - 1)}
DEFAULTS = {"limit": 1400, "server-limit": 1400, "window": 1024, "receivers": 2, "burst": 1, "next": 1, "turns": 1000}
DEFAULTS |= {"beats": 1, "ends": 1, "drop-a": 0, "drop-b": 0, "from": 1, "count": (1 << 64) - 1}
# The options with values of each command. Options without a default are required, except the journal of `pack`.
COMMANDS = {
    "pack": "session limit journal",
    "sim": "session limit server-limit window receivers burst",
    "publish": "session limit a b journal beats ends",
    "serve": "journal limit burst bind turns",
    "listen": "session next window a b server burst turns",
    "loop": "session limit server-limit window burst drop-a drop-b turns",
    "upgrade": "journal to",
    "close": "journal",
    "dump": "journal from count",
}


def is_required(command, name):
    """Whether a command needs this option."""
    return name not in DEFAULTS and (command, name) != ("pack", "journal")


def is_address(text):
    """Whether a text is four numbers up to 255 and a port, without leading zeros."""
    number = "(0|[1-9][0-9]*)"
    found = re.fullmatch(rf"{number}\.{number}\.{number}\.{number}:{number}", text)
    return found is not None and all(int(it) <= 255 for it in found.groups()[:4]) and int(found[5]) <= 65535


def is_value(name, text):
    """Whether a text is a valid value of an option."""
    kind = VALUES[name]
    if kind == "session":
        return re.fullmatch(r"[\x20-\x7e]{1,10}", text) is not None
    if isinstance(kind, tuple):
        return re.fullmatch(r"[0-9]{1,20}", text) is not None and kind[0] <= int(text) <= kind[1]
    return kind == NAME or is_address(text)


def name_of_fault(command, values, form):
    """The name that follows `fault` if the values of the options are invalid, otherwise None. The values are given by
    option name. An option that the command does not have is a usage fault. The form of the messages is `none` if
    `--end-at-empty` is given without `--blocks`."""
    names = COMMANDS[command].split()
    if set(values) - set(names) or any(is_required(command, it) for it in set(names) - set(values)):
        return "Usage"
    bad = [name for name, text in values.items() if not is_value(name, text)]
    if any(VALUES[name] == ADDRESS for name in bad):
        return "Address"
    numbers = DEFAULTS | {name: int(text) for name, text in values.items() if name in DEFAULTS and name not in bad}
    is_below = "server-limit" in names and numbers["server-limit"] < numbers["limit"]
    is_same = command == "upgrade" and values["journal"] == values["to"]
    return "Usage" if bad or is_below or is_same or form == "none" else None


# show


def lines_of_packet(packet):
    head = f"{packet.kind} {packet.session.hex()} {packet.sequence}"
    if packet.kind != "data":
        return [head]
    return [f"{head} {len(packet.messages)}"] + [
        f"  {number} {len(message)} {printed_message(message)}" for number, message in packet.carried().items()
    ]


def lines_of_request(request):
    return [f"request {request.session.hex()} {request.sequence} {request.count}"]


def show(some_bytes, is_request=False):
    output, status = [], 0
    for line in filter(None, lines_of(some_bytes)):
        try:
            datagram = bytes_of(line)
            output += lines_of_request(request_of(datagram)) if is_request else lines_of_packet(packet_of(datagram))
        except Refused as why:
            output.append(f"refused {why}")
            status = 2
    return text_of(output), status


# Publishing.


def longest_prefix(limit, messages):
    """The longest prefix of messages that fits in a packet."""
    sizes = accumulate((2 + len(it) for it in messages), initial=HEADER)
    return messages[: bisect_right(list(sizes), limit) - 1]


def packing(limit, session, first, messages, most=GREATEST):
    """The first packets of messages, at most `most`. Each holds as many of the remaining messages as fit."""
    packets, at = [], 0
    while at < len(messages) and len(packets) < most:
        # A packet of 65,507 bytes holds at most 32,743 messages.
        fitting = longest_prefix(limit, messages[at : at + 32743])
        if not fitting:
            break
        packets.append(Packet("data", session, first + at, tuple(fitting)))
        at += len(fitting)
    return packets


def messages_of(limit, lines):
    """The messages of the lines before the first refused line, and the text printed for that line, or None."""
    messages = []
    for number, line in enumerate(lines, 1):
        try:
            message = bytes_of(line)
            if len(message) > limit - 22:
                raise Refused(f"TooLong {len(message)}")
        except Refused as why:
            return messages, f"refused line {number} {why}"
        messages.append(message)
    return messages, None


def messages_in_blocks(limit, some_bytes, ends_at_empty):
    """The messages of the blocks before the first refused one, and the text printed for that block, or None."""
    messages, at = [], 0
    while at < len(some_bytes) or ends_at_empty:
        head = some_bytes[at : at + 2]
        size = int.from_bytes(head, "big")
        message = some_bytes[at + 2 : at + 2 + size]
        if len(head) < 2 or len(message) < size:
            return messages, f"refused block {len(messages) + 1} Cut"
        if ends_at_empty and not size:
            break
        if size > limit - 22:
            return messages, f"refused block {len(messages) + 1} TooLong {size}"
        messages.append(message)
        at += 2 + size
    return messages, None


def packets_of(session, limit, some_bytes, form):
    """The messages of an input, the packets that are sent of them before a refusal, and its text, or None. The form is
    `lines`, `blocks` or `blocks to empty`."""
    if form == "lines":
        messages, refusal = messages_of(limit, lines_of(some_bytes))
    else:
        messages, refusal = messages_in_blocks(limit, some_bytes, form == "blocks to empty")
    packets = packing(limit, session, 1, messages)
    # Before a refused line, the packet that is not yet full is not sent.
    return messages, packets[:-1] if refusal and form == "lines" else packets, refusal


def pack(session, limit, some_bytes, form="lines"):
    messages, packets, refusal = packets_of(session, limit, some_bytes, form)
    if refusal:
        return text_of([encoding(it).hex() for it in packets] + [refusal]), 2
    packets.append(Packet("end", session, len(messages) + 1))
    return text_of(encoding(it).hex() for it in packets), 0


def pack_journal(session, limit, some_bytes, form):
    """The text, the status, and the journal file, or None."""
    messages, _, refusal = packets_of(session, limit, some_bytes, form)
    if refusal:
        return text_of([refusal]), 2, None
    return text_of([f"saved {len(messages)}"]), 0, journal_file(session, messages, True)


def publish(session, limit, beats, ends, some_bytes, form="lines"):
    """Also returns the datagrams sent on each line, and the journal file, or None."""
    messages, packets, refusal = packets_of(session, limit, some_bytes, form)
    if refusal:
        return text_of([refusal]), 2, [encoding(it) for it in packets], None
    top = len(messages) + 1
    sent = packets + beats * [Packet("heartbeat", session, top)] + ends * [Packet("end", session, top)]
    text = f"published {len(messages)} datagrams {len(packets)} failed 0"
    return text_of([text]), 0, [encoding(it) for it in sent], journal_file(session, messages, True)


# The journal file.


@dataclass(frozen=True)
class Journal:
    session: bytes
    messages: list
    is_closed: bool


def journal_file(session, messages, is_closed):
    """A journal file of version 2."""
    flag = b"\1" if is_closed else b"\0"
    return b"MOLDJNL2" + session + flag + len(messages).to_bytes(8, "big") + blocks(messages)


def old_journal_file(session, messages):
    """A journal file of version 1."""
    return b"MOLDJNL1" + session + blocks(messages)


def record_file(session, messages, is_closed, rest=b"\0"):
    """A journal file of version 3. The bytes `rest` follow the records, or `01 01` if it is closed."""
    records = b"".join(b"\1\0" + blocks([message]) for message in messages)
    return b"MOLDJNL3" + session + records + (b"\1\1" if is_closed else b"") + rest


def records_of(some_bytes, longest):
    """The messages of the records of a file, whether it is closed, and a refusal or None."""
    messages = []
    while True:
        damaged = f"Damaged {len(messages) + 1}"
        if not some_bytes:
            return messages, False, damaged
        if some_bytes[0] != 1:
            return messages, False, None
        if some_bytes[1:2] == b"\1":
            return messages, True, None if len(some_bytes) > 2 else damaged
        if some_bytes[1:2] != b"\0" or len(some_bytes) < 4:
            return messages, False, damaged
        size = number_in(some_bytes[2:4])
        if size > longest:
            return messages, False, f"TooLong {size}"
        if len(some_bytes) < 4 + size:
            return messages, False, damaged
        messages.append(some_bytes[4 : 4 + size])
        some_bytes = some_bytes[4 + size :]


def messages_of_file(some_bytes, longest):
    """The messages of the blocks in the rest of a file."""
    messages, size = whole_blocks(some_bytes)
    for message in messages:
        if len(message) > longest:
            raise Refused(f"TooLong {len(message)}")
    rest = some_bytes[size:]
    if len(rest) >= 2 and number_in(rest[:2]) > longest:
        raise Refused(f"TooLong {number_in(rest[:2])}")
    if rest:
        raise Refused(f"BlockCut {len(messages) + 1}")
    return messages


def journal_of(some_bytes, longest=65535):
    """The journal in a file. Messages may have at most `longest` bytes."""
    if len(some_bytes) < 18:
        raise Refused(f"Short {len(some_bytes)}")
    if some_bytes[:8] not in (b"MOLDJNL1", b"MOLDJNL2", b"MOLDJNL3"):
        raise Refused("BadMagic")
    session = some_bytes[8:18]
    if some_bytes[:8] == b"MOLDJNL3":
        messages, is_closed, refusal = records_of(some_bytes[18:], longest)
        if refusal:
            raise Refused(refusal)
        return Journal(session, messages, is_closed)
    if some_bytes[:8] == b"MOLDJNL1":
        return Journal(session, messages_of_file(some_bytes[18:], longest), False)
    if len(some_bytes) < 27:
        raise Refused(f"Short {len(some_bytes)}")
    if some_bytes[18] > 1:
        raise Refused(f"BadFlag {some_bytes[18]}")
    messages = messages_of_file(some_bytes[27:], longest)
    stated = number_in(some_bytes[19:27])
    if stated != len(messages):
        raise Refused(f"CountDiffers {stated} {len(messages)}")
    return Journal(session, messages, some_bytes[18] == 1)


def upgrade(close, some_bytes):
    """Also returns the new file, or None."""
    try:
        journal = journal_of(some_bytes)
    except Refused as why:
        return text_of([f"refused {why}"]), 2, None
    is_closed = close or journal.is_closed
    text = f"upgraded {len(journal.messages)} {'closed' if is_closed else 'open'}"
    return text_of([text]), 0, journal_file(journal.session, journal.messages, is_closed)


def close(some_bytes):
    """Also returns the file afterwards."""
    try:
        if len(some_bytes) >= 18 and not some_bytes.startswith(b"MOLDJNL3"):
            raise Refused("BadMagic")
        journal = journal_of(some_bytes)
        if journal.is_closed:
            raise Refused("Closed")
    except Refused as why:
        return text_of([f"refused {why}"]), 2, some_bytes
    gate = 18 + sum(4 + len(it) for it in journal.messages)
    closed = some_bytes[:gate] + b"\1\1\0" + some_bytes[gate + 3:]
    return text_of([f"closed {len(journal.messages)}"]), 0, closed


def messages_before(some_bytes):
    """The messages of the complete blocks or records after a valid file header."""
    if some_bytes[:8] == b"MOLDJNL3" and len(some_bytes) >= 18:
        return records_of(some_bytes[18:], 65535)[0]
    size = {b"MOLDJNL1": 18, b"MOLDJNL2": 27}.get(some_bytes[:8])
    if size is None or len(some_bytes) < size or (size == 27 and some_bytes[18] > 1):
        return []
    return whole_blocks(some_bytes[size:])[0]


def dump(first, count, some_bytes, form="lines"):
    """Also returns what is printed on standard error."""
    messages = messages_before(some_bytes)
    shown = messages[first - 1 : first - 1 + count]
    refusal, has_ended = None, False
    try:
        # The mark of the end is printed unless the session goes on, or a message follows the range.
        has_ended = journal_of(some_bytes).is_closed and not messages[first - 1 + count :]
    except Refused as why:
        refusal = str(why)
    if form == "blocks to empty" and b"" in shown:
        shown = shown[: shown.index(b"")]
        refusal = f"Empty {first + len(shown)}"
    report = [f"refused {refusal}"] if refusal else []
    status = 2 if refusal else 0
    if form == "lines":
        return text_of([it.hex() for it in shown] + report), status, b""
    mark = [b""] if form == "blocks to empty" and has_ended and not refusal else []
    return blocks(shown + mark), status, text_of(report)


# The server.


def response(session, messages, limit, burst, datagram):
    """The packets of the responses to the datagram of a request."""
    request = request_of(datagram)
    if request.session != session:
        raise Refused("WrongSession")
    if request.sequence == 0:
        raise Refused("SequenceZero")
    if request.count == 0:
        raise Refused("EmptyRequest")
    if request.sequence > len(messages):
        raise Refused(f"Ahead {len(messages) + 1}")
    wanted = messages[request.sequence - 1 :][: request.count]
    return packing(limit, session, request.sequence, wanted, burst)


def serve(limit, burst, file, requests, quiet=0):
    """Also returns the responses, each a list of datagrams. `quiet` is the number of turns without a request."""
    try:
        journal = journal_of(file, limit - 22)
    except Refused as why:
        return text_of([f"refused {why}"]), 2, []
    output, responses, refused = [], [], 0
    for request in requests:
        try:
            packets = response(journal.session, journal.messages, limit, burst, request)
            output += [f"answered {it.sequence} {len(it.messages)}" for it in packets]
            responses.append([encoding(it) for it in packets])
        except Refused as why:
            output.append(f"refused {why}")
            refused += 1
    output.append(f"answered {sum(map(len, responses))} refused {refused} quiet {quiet} failed 0")
    return text_of(output), 0, responses


# The rule of a receiver.


@dataclass(frozen=True)
class View:
    """The state of a receiver. `end` is None before an end packet. `store` maps sequence numbers to messages."""

    session: bytes
    next: int
    known: int
    window: int
    end: int = None
    store: dict = field(default_factory=dict)

    def wanted(self):
        if self.next == self.known:
            return None
        distance = min(self.store, default=self.known) - self.next
        return Request(self.session, self.next, min(LARGEST_REQUEST, distance))

    def is_finished(self):
        return self.end == self.next


def fresh(session, first, window):
    return View(session, first, first, window)


def check_packet(view, packet):
    """Refuses a packet for the first reason that applies."""
    if packet.session != view.session:
        raise Refused("WrongSession")
    if packet.sequence == 0:
        raise Refused("SequenceZero")
    if packet.top() > GREATEST:
        raise Refused("PastLast")
    if packet.kind == "end" and view.end not in (None, packet.sequence):
        raise Refused(f"EndConflict {view.end}")
    if packet.kind == "end" and packet.sequence < view.known:
        raise Refused(f"EndBelow {view.known}")
    if packet.kind != "end" and view.end is not None and packet.top() > view.end:
        raise Refused(f"PastEnd {view.end}")
    carried = packet.carried()
    differing = [k for k, message in view.store.items() if k >= view.next and carried.get(k, message) != message]
    if differing:
        raise Refused(f"Conflict {min(differing)}")


def malformed(datagram):
    try:
        return packet_of(datagram)
    except Refused as why:
        raise Refused(f"Malformed {why}") from None


def receive(view, datagram):
    """The view afterwards, the delivered messages with their numbers, and the three counts."""
    packet = malformed(datagram)
    check_packet(view, packet)
    carried = packet.carried()
    available = view.store | {k: message for k, message in carried.items() if k >= view.next}
    after = view.next
    while after in available:
        after += 1
    store = {k: message for k, message in available.items() if after < k < after + view.window}
    delivered = [(k, available[k]) for k in range(view.next, after)]
    kept = sum(k in store and k not in view.store for k in carried)
    beyond = sum(k >= after + view.window for k in carried)
    end = packet.sequence if packet.kind == "end" else view.end
    now = View(view.session, after, max(view.known, packet.top()), view.window, end, store)
    return now, delivered, (len(delivered), kept, beyond)


def last_line(view, failed=0):
    if view.is_finished():
        return f"finished next {view.next} failed {failed}", 0
    return f"open next {view.next} known {view.known} failed {failed}", 1


def take(view, datagram, output):
    """The view of a listener after a datagram. The printed lines are appended to `output`."""
    try:
        view, delivered, _ = receive(view, datagram)
        output += [f"{number} {printed_message(message)}" for number, message in delivered]
    except Refused as why:
        output.append(f"refused {why}")
    return view


def reported(report, view, datagram):
    """The report of a line after a datagram on it. `top` is the greatest top of its packets."""
    datagrams, refused, top = report
    try:
        receive(view, datagram)
        return datagrams + 1, refused, max(top, packet_of(datagram).top())
    except Refused:
        return datagrams, refused + 1, top


class Listener:
    """A listener on lines `a` and `b`, which requests missing messages."""

    def __init__(self, view):
        self.view, self.output = view, []
        # For each line the number of accepted and of refused datagrams, and the greatest top.
        self.reports = {b"a": (0, 0, view.known), b"b": (0, 0, view.known)}

    def take(self, way, datagram):
        """Takes a datagram of a line, or of a response."""
        if way in self.reports:
            self.reports[way] = reported(self.reports[way], self.view, datagram)
        self.view = take(self.view, datagram, self.output)

    def report_lines(self):
        return [
            f"line {way.decode()} datagrams {datagrams} refused {refused} front {top} lag {self.view.known - top}"
            for way, (datagrams, refused, top) in self.reports.items()
        ]

    def text(self, is_reported):
        """The whole text, and the status."""
        line, status = last_line(self.view)
        return text_of([*self.output, *(self.report_lines() if is_reported else []), line]), status


def empty_number(line):
    """The number of an empty message, if the line is that of one."""
    number, _, digits = line.partition(b" ")
    return number if number.isdigit() and digits == b"-" else None


def apart(text, status, form):
    """The text of a listener that prints blocks, which are on standard output, its status, and its text on standard
    error. The given text and status are those of a listener that prints lines. If an empty block marks the end, an
    empty message ends the text."""
    printed, notes = [], []
    for line in text.splitlines():
        number, _, digits = line.partition(b" ")
        if not number.isdigit():
            notes.append(line + b"\n")
        elif form == "blocks to empty" and empty_number(line):
            return blocks(printed), 2, b"".join([*notes, b"refused Empty " + number + b"\n"])
        else:
            printed.append(b"" if digits == b"-" else bytes.fromhex(digits.decode()))
    mark = [b""] if form == "blocks to empty" and not status else []
    return blocks(printed + mark), status, b"".join(notes)


def listen(view, datagrams, is_reported, form):
    """The text, the status and the text on standard error for datagrams in the order in which they are taken, each with
    its way: a, b or answer."""
    listener = Listener(view)
    for way, datagram in datagrams:
        listener.take(way, datagram)
    text, status = listener.text(is_reported)
    return (text, status, b"") if form == "lines" else apart(text, status, form)


# loop


def is_sent(drop, number):
    """Whether packet `number`, counted from 1, is sent on a line that drops every `drop`-th packet."""
    return drop == 0 or number % drop != 0


def loop(session, limits, window, burst, drops, turns, is_reported, some_bytes, form="lines"):
    """The text, the status, and the text on standard error."""
    text, status = loop_text(session, limits, window, burst, drops, turns, is_reported, some_bytes, form)
    return (text, status, b"") if form == "lines" else apart(text, status, form)


def loop_text(session, limits, window, burst, drops, turns, is_reported, some_bytes, form):
    """The text if messages are printed as lines, and the status. Models ports that lose nothing. The limits are those
    of publisher and server, the drops those of A and B."""
    limit, server_limit = limits
    messages, packets, refusal = packets_of(session, limit, some_bytes, form)
    listener = Listener(fresh(session, 1, window))
    for number, packet in enumerate(packets, 1):
        for way, drop in zip(listener.reports, drops):
            if is_sent(drop, number):
                listener.take(way, encoding(packet))
    if refusal:
        return text_of([*listener.output, refusal]), 2
    for way in listener.reports:
        listener.take(way, encoding(Packet("end", session, len(messages) + 1)))
    for _ in range(turns):
        wanted = listener.view.wanted()
        if wanted is None:
            break
        for packet in response(session, messages, server_limit, burst, wanted.encoding()):
            listener.take(b"answer", encoding(packet))
    return listener.text(is_reported)


# sim


@dataclass
class World:
    session: bytes
    limit: int
    server_limit: int
    burst: int
    window: int
    views: list
    books: list
    messages: list = field(default_factory=list)
    is_closed: bool = False
    # How many messages were sent in datagrams.
    sent_messages: int = 0
    sent: list = field(default_factory=list)

    def send(self, packets):
        first = len(self.sent)
        self.sent += [encoding(it) for it in packets]
        return f"sent {first}" + (f" to {len(self.sent) - 1}" if len(packets) > 1 else "")

    def view(self, r):
        if r >= len(self.views):
            raise Refused("NoReceiver")
        return self.views[r]

    def publish(self, message):
        if self.is_closed:
            raise Refused("Closed")
        if len(message) > self.limit - 22:
            raise Refused(f"TooLong {len(message)}")
        self.messages.append(message)
        return f"published {len(self.messages)}"

    def datagram(self):
        unsent = self.messages[self.sent_messages :]
        if not unsent:
            return "nothing"
        packets = packing(self.limit, self.session, self.sent_messages + 1, unsent, 1)
        self.sent_messages += len(packets[0].messages)
        return self.send(packets)

    def heartbeat(self):
        if self.is_closed:
            return "nothing"
        return self.send([Packet("heartbeat", self.session, self.sent_messages + 1)])

    def close(self):
        if self.sent_messages < len(self.messages):
            raise Refused(f"Unsent {len(self.messages) - self.sent_messages}")
        self.is_closed = True
        return "closed"

    def end(self):
        if not self.is_closed:
            return "nothing"
        return self.send([Packet("end", self.session, len(self.messages) + 1)])

    def request(self, datagram):
        return self.send(response(self.session, self.messages, self.server_limit, self.burst, datagram))

    def ask(self, r):
        wanted = self.view(r).wanted()
        return "nothing" if wanted is None else self.request(wanted.encoding())

    def deliver(self, r, _, index):
        view = self.view(r)
        if index >= len(self.sent):
            raise Refused("NoSuchDatagram")
        self.views[r], delivered, counts = receive(view, self.sent[index])
        self.books[r] += [message for _, message in delivered]
        return "delivered {} {} {}".format(*counts)

    def noise(self, r, _, some_bytes):
        view = self.view(r)
        try:
            receive(view, some_bytes)
        except Refused as why:
            if str(why).startswith(("Malformed", "WrongSession")):
                return f"noise {why}"
        raise Refused("NotNoise")

    def restart(self, r, first):
        view = self.view(r)
        if not 1 <= first <= view.next:
            raise Refused(f"NotReached {view.next}")
        self.views[r] = fresh(self.session, first, self.window)
        del self.books[r][first - 1 :]
        return f"restarted {first}"


def make_world(session, limits, window, receivers, burst):
    views = [fresh(session, 1, window) for _ in range(receivers)]
    return World(session, *limits, burst, window, views, [[] for _ in views])


def read_number(word):
    if re.fullmatch(rb"[0-9]{1,20}", word) and int(word) <= GREATEST:
        return int(word)
    raise Refused("Syntax")


def read_bytes(word):
    if word == b"-":
        return b""
    try:
        return bytes_of(word or b"x")
    except Refused:
        raise Refused("Syntax") from None


def read_way(word):
    if word in (b"a", b"b", b"answer"):
        return word
    raise Refused("Syntax")


EVENTS = {
    b"publish": (World.publish, read_bytes),
    b"datagram": (World.datagram,),
    b"heartbeat": (World.heartbeat,),
    b"close": (World.close,),
    b"end": (World.end,),
    b"request": (World.request, read_bytes),
    b"ask": (World.ask, read_number),
    b"deliver": (World.deliver, read_number, read_way, read_number),
    b"noise": (World.noise, read_number, read_way, read_bytes),
    b"restart": (World.restart, read_number, read_number),
}


def run_line(world, line):
    """Runs a line of a script, and returns the text printed for it."""
    name, *words = line.split(b" ")
    call, *readers = EVENTS.get(name, (None,))
    if call is None or len(words) != len(readers):
        raise Refused("Syntax")
    return call(world, *[read(word) for read, word in zip(readers, words)])


def line_of_receiver(r, view, book):
    state = "finished" if view.is_finished() else "open"
    return f"receiver {r} next {view.next} known {view.known} book {len(book)} {state}"


def sim(session, limits, window, receivers, burst, some_bytes):
    """The limits are those of publisher and server."""
    world = make_world(session, limits, window, receivers, burst)
    output, status = [], 0
    for line in filter(None, lines_of(some_bytes)):
        try:
            output.append(run_line(world, line))
        except Refused as why:
            output.append(f"refused {why}")
            status = 2
    output += [line_of_receiver(r, *them) for r, them in enumerate(zip(world.views, world.books))]
    return text_of(output), status


# check


@dataclass
class Capture:
    """The state of a session as the accepted datagrams show it."""

    session: bytes = None
    known: int = 1
    end: int = None
    carried: dict = field(default_factory=dict)

    def add(self, datagram):
        packet = malformed(datagram)
        # The reasons are those of a receiver that stores each message carried before.
        session = packet.session if self.session is None else self.session
        check_packet(View(session, 1, self.known, 1, self.end, self.carried), packet)
        self.session = session
        self.known = max(self.known, packet.top())
        self.end = packet.sequence if packet.kind == "end" else self.end
        self.carried |= packet.carried()

    def missing(self):
        """The maximal ranges of numbers below the greatest top that no packet carries."""
        marks = [0, *sorted(self.carried), self.known]
        return [(a + 1, b - 1) for a, b in zip(marks, marks[1:]) if a + 1 < b]

    def verdict(self):
        """The lines and the status."""
        missing = self.missing()
        if self.end is not None and not missing:
            return [f"whole {self.end - 1}"], 0
        incomplete = f"incomplete end {'none' if self.end is None else self.end}"
        return [incomplete] + [f"missing {first} {last}" for first, last in missing], 1


@dataclass
class Check:
    """A check that has read its input: the text before its verdict, the state of the session, the line of a refused
    datagram, or None, and whether a part of the input is at fault."""

    first: str
    capture: Capture
    refusal: str = None
    is_at_fault: bool = False

    def report(self):
        """The text and the status of `check`."""
        lines, status = ([self.refusal], 2) if self.refusal else self.capture.verdict()
        return text_of([self.first, *lines]), 2 if self.is_at_fault else status

    def save(self):
        """The text and the status of `check --journal`, and the journal, or None."""
        text, status = self.report()
        if status:
            return text, status, None
        messages = [self.capture.carried[number] for number in sorted(self.capture.carried)]
        return text + text_of([f"saved {len(messages)}"]), 0, journal_file(self.capture.session, messages, True)

    def extract(self, form, first, count):
        """The text and the status of `extract`, and the file that it writes, or None."""
        below = first + count
        numbers = [number for number in sorted(self.capture.carried) if first <= number < below]
        wanted = min(below, GREATEST if self.capture.end is None else self.capture.end)
        if self.refusal or (form == "--blocks" and len(numbers) < max(wanted - first, 0)):
            return *self.report(), None
        messages = [self.capture.carried[number] for number in numbers]
        lines = [f"{number} {printed_message(message)}" for number, message in zip(numbers, messages)]
        file = blocks(messages) if form == "--blocks" else text_of(lines)
        return text_of([self.first, f"extracted {len(numbers)}"]), 2 if self.is_at_fault else 0, file


def check_of(first, captured, is_at_fault=False):
    """The check of named datagrams. A function returns or refuses each datagram."""
    capture = Capture()
    for name, datagram in captured:
        try:
            capture.add(datagram())
        except Refused as why:
            return Check(first, capture, f"refused {name} {why}", is_at_fault)
    return Check(first, capture, None, is_at_fault)


def check(entries):
    """The entries of a folder are names with bytes, or with None for an entry that is not read."""
    captured = sorted((name.encode(), some_bytes) for name, some_bytes in entries if name.endswith(".pkt"))
    first_line = f"files {len(captured)} skipped {len(entries) - len(captured)}"
    return check_of(first_line, [(name.decode(), lambda it=it: it) for name, it in captured]).report()


def named_lines(some_bytes):
    """The lines that are not empty, with their names."""
    lines = [(number, line) for number, line in enumerate(lines_of(some_bytes), 1) if line]
    return [(f"line {number}", lambda it=it: bytes_of(it)) for number, it in lines]


def check_of_lines(some_bytes):
    named = named_lines(some_bytes)
    return check_of(f"datagrams {len(named)}", named)


def session_or_none(datagram):
    try:
        return packet_of(datagram).session
    except Refused:
        return None


def each_session(captured):
    """The text and the statuses for named datagrams whose sessions are checked one by one."""
    sessions, text, statuses = {}, b"", []
    for name, content in captured:
        sessions.setdefault(session_or_none(content), []).append((name, lambda it=content: it))
    for session, of_session in sessions.items():
        if session is None:
            checked, status = text_of(["session none", f"refused {len(of_session)}"]), 2
        else:
            checked, status = check_of(f"session {session.hex()}", of_session).report()
        text, statuses = text + checked, [*statuses, status]
    return text, statuses


def check_each_line(some_bytes):
    """The text and the status for lines whose sessions are checked one by one."""
    named, captured, last = named_lines(some_bytes), [], []
    for name, datagram in named:
        try:
            captured.append((name, datagram()))
        except Refused as why:
            last = [f"refused {name} {why}"]
            break
    text, statuses = each_session(captured)
    return text_of([f"datagrams {len(named)}"]) + text + text_of(last), max([*statuses, *[2 for _ in last]], default=1)
