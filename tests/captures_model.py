"""An independent model of captures: writers of capture files and their frames, and the output and the files of
`check --capture`, `extract --capture`, `show --capture` and `sessions`. It was written from the rule and from the
public descriptions of the formats, without the program's definitions. `tests/captures` compares the program with it.
tests/model.py has the rules of packets, and of what is checked and written.
"""
import re
import socket
from dataclasses import dataclass, field

import model

# Link types, by the registry of tcpdump.
NULL, ETHERNET, RAW, LOOP, COOKED, IPV4_LINK, IPV6_LINK, COOKED_2 = 0, 1, 101, 108, 113, 228, 229, 276
# Protocol numbers of Ethernet, and of IP.
IPV4, IPV6, TAGS = 0x0800, 0x86DD, (0x8100, 0x88A8, 0x9100)
UDP, FRAGMENT, AUTHENTICATION = 17, 44, 51
# Hop-by-hop options, routing, destination options, mobility, HIP and shim6, whose lengths are counted alike.
EXTENSIONS = (0, 43, 60, 135, 139, 140)
MOST_EXTENSIONS, MOST_TAGS = 8, 2
# The kinds of blocks that are read, and the bytes that one has at least.
SECTION, INTERFACE, SIMPLE, ENHANCED = 0x0A0D0D0A, 1, 3, 6
LEAST = {SECTION: 28, INTERFACE: 20, SIMPLE: 16, ENHANCED: 32}
ORDER_MAGIC = 0x1A2B3C4D
MAGICS = {"microseconds": 0xA1B2C3D4, "nanoseconds": 0xA1B23C4D}
PER_SECOND = {"microseconds": 10**6, "nanoseconds": 10**9}
LONGEST_FRAME, LONGEST_BLOCK, MOST_INTERFACES = 262144, 327680, 1024
BILLION = 10**9


# Writers of files.


def classic_head(order="little", unit="microseconds", link=ETHERNET, version=2, snaplen=262144):
    magic = MAGICS[unit].to_bytes(4, order)
    return magic + version.to_bytes(2, order) + (4).to_bytes(2, order) + bytes(8) + snaplen.to_bytes(4, order) + \
        link.to_bytes(4, order)


def record(frame, order="little", seconds=0, fraction=0, size=None, original=None):
    """A record of a classic capture. `size` is the captured length that it states."""
    size = len(frame) if size is None else size
    fields = seconds, fraction, size, size if original is None else original
    return b"".join(it.to_bytes(4, order) for it in fields) + frame


def classic(frames, order="little", unit="microseconds", link=ETHERNET):
    """A classic capture of frames, each at a second of its own."""
    records = (record(it, order, second) for second, it in enumerate(frames, 1))
    return classic_head(order, unit, link) + b"".join(records)


def padding(size):
    return bytes(-size % 4)


def block(kind, body, order="little", total=None, last=None):
    """A block of pcapng. `total` and `last` are the lengths that its start and its end state."""
    body += padding(len(body))
    total = 12 + len(body) if total is None else total
    last = total if last is None else last
    return kind.to_bytes(4, order) + total.to_bytes(4, order) + body + last.to_bytes(4, order)


def option(code, value, order="little"):
    return code.to_bytes(2, order) + len(value).to_bytes(2, order) + value + padding(len(value))


def section(order="little", options=b"", length=(1 << 64) - 1, magic=ORDER_MAGIC):
    version = (1).to_bytes(2, order) + bytes(2)
    return block(SECTION, magic.to_bytes(4, order) + version + length.to_bytes(8, order) + options, order)


def interface(link=ETHERNET, order="little", snaplen=0, options=b""):
    return block(INTERFACE, link.to_bytes(2, order) + bytes(2) + snaplen.to_bytes(4, order) + options, order)


def clock(order="little", resolution=None, offset=None):
    """The options of an interface for its resolution, a byte, and its offset in seconds."""
    options = b"" if resolution is None else option(9, bytes([resolution]), order)
    if offset is not None:
        options += option(14, (offset % (1 << 64)).to_bytes(8, order), order)
    return options + (option(0, b"", order) if options else b"")


def enhanced(frame, order="little", number=0, units=0, size=None, original=None, options=b""):
    size = len(frame) if size is None else size
    fields = number, units >> 32, units & 0xFFFFFFFF, size, size if original is None else original
    body = b"".join(it.to_bytes(4, order) for it in fields)
    return block(ENHANCED, body + frame + padding(len(frame)) + options, order)


def simple(frame, order="little", original=None):
    return block(SIMPLE, (len(frame) if original is None else original).to_bytes(4, order) + frame, order)


def pcapng(frames, order="little", link=ETHERNET):
    """A section with one interface, and an enhanced packet for each frame, at a second of its own."""
    packets = (enhanced(it, order, units=second * 10**6) for second, it in enumerate(frames, 1))
    return section(order) + interface(link, order) + b"".join(packets)


# Writers of frames.


def big(number, size=2):
    return number.to_bytes(size, "big")


def address(text):
    """The 4 or 16 bytes of an address."""
    return socket.inet_pton(socket.AF_INET6 if ":" in text else socket.AF_INET, text)


def udp(payload, ports=(5000, 26400), size=None):
    size = 8 + len(payload) if size is None else size
    return big(ports[0]) + big(ports[1]) + big(size % 65536) + bytes(2) + payload


def ipv4(payload, source="10.0.0.1", target="239.1.1.1", protocol=UDP, options=b"", fragment=0, total=None):
    """A packet. `fragment` is the field with the flags and the offset, and `total` the length that it states."""
    total = 20 + len(options) + len(payload) if total is None else total
    first = 0x45 + len(options) // 4
    return bytes([first, 0]) + big(total % 65536) + bytes(2) + big(fragment) + bytes([64, protocol, 0, 0]) + \
        address(source) + address(target) + options + payload


def extension(number, units=0):
    """An extension header with its protocol number: all of it, except for its first byte."""
    return number, bytes([units]) + bytes(4 * (units + 2) - 2 if number == AUTHENTICATION else 8 * (units + 1) - 2)


def fragment_header(field):
    return FRAGMENT, bytes(1) + big(field) + bytes(4)


def ipv6(payload, source="fe80::1", target="ff02::1:2", protocol=UDP, extensions=(), size=None):
    numbers = [number for number, _ in extensions] + [protocol]
    headers = b"".join(bytes([after]) + rest for (_, rest), after in zip(extensions, numbers[1:]))
    size = len(headers) + len(payload) if size is None else size
    return bytes([0x60, 0, 0, 0]) + big(size % 65536) + bytes([numbers[0], 64]) + address(source) + address(target) + \
        headers + payload


def tagged(packet, tags=(), protocol=None):
    """The tags, the protocol number and the packet. By default the number is that of the packet's version."""
    if protocol is None:
        protocol = IPV6 if packet[:1] >= b"\x60" else IPV4
    return b"".join(big(it) + big(100) for it in tags) + big(protocol) + packet


def ethernet(packet, tags=(), protocol=None):
    return bytes.fromhex("01005e010101020000000001") + tagged(packet, tags, protocol)


def linked(link, packet, tags=(), protocol=None):
    """The frame of a packet on a link of this type."""
    if link == ETHERNET:
        return ethernet(packet, tags, protocol)
    if link == COOKED:
        return bytes(2) + big(1) + big(6) + bytes(8) + tagged(packet, tags, protocol)
    if link == COOKED_2:
        # Here the protocol number is at the start of the header, before the interface and the address.
        rest = tagged(packet, tags, protocol)
        return rest[:2] + bytes(18) + rest[2:]
    if link in (NULL, LOOP):
        family = 24 if packet[:1] >= b"\x60" else 2
        return family.to_bytes(4, "little" if link == NULL else "big") + packet
    return packet


# The reader of files.


class Fault(Exception):
    """Why a file is not read on, as it is printed after its name."""


class Unread(bytes):
    """The bytes of a file before a read that fails. A folder has none."""


@dataclass(frozen=True)
class Frame:
    link: int
    # The time in nanoseconds, or None.
    time: int
    content: bytes


@dataclass(frozen=True)
class Described:
    """An interface of a section."""

    link: int
    snaplen: int
    # The units in a second, or None if they are out of range, and the offset in seconds.
    ticks: int = 10**6
    offset: int = 0

    def time(self, units):
        if self.ticks is None:
            return None
        time = self.offset * BILLION + units * BILLION // self.ticks
        return time if 0 <= time < BILLION << 64 else None


def number_at(some_bytes, at, size, order):
    return int.from_bytes(some_bytes[at : at + size], order)


def frames_of(file):
    """The frames of a file, one by one. Then it raises Fault, if the file is at fault."""
    magics = {magic.to_bytes(4, order): (order, unit) for unit, magic in MAGICS.items() for order in ("big", "little")}
    if len(file) < 4:
        raise Fault("Cut 0")
    if file[:4] == big(SECTION, 4):
        return frames_of_blocks(file)
    if file[:4] in magics:
        return frames_of_records(file, *magics[file[:4]])
    raise Fault("NoCapture")


def frames_of_records(file, order, unit):
    if len(file) < 24:
        raise Fault("Cut 0")
    if number_at(file, 4, 2, order) != 2:
        raise Fault("NoCapture")
    # The other half of the field states whether frames end with a check sequence.
    link, at = number_at(file, 20, 4, order) & 0xFFFF, 24
    while at < len(file):
        if at + 16 > len(file):
            raise Fault(f"Cut {at}")
        seconds, fraction, size = (number_at(file, at + it, 4, order) for it in (0, 4, 8))
        if size > LONGEST_FRAME:
            raise Fault(f"TooLong {at}")
        if at + 16 + size > len(file):
            raise Fault(f"Cut {at}")
        time = seconds * BILLION + fraction * (BILLION // PER_SECOND[unit])
        yield Frame(link, time, file[at + 16 : at + 16 + size])
        at += 16 + size


def order_of(magic):
    for order in ("big", "little"):
        if int.from_bytes(magic, order) == ORDER_MAGIC:
            return order
    return None


def blocks_of(file):
    """The offset, the order, the kind and the bytes of each block."""
    at, order = 0, None
    while at < len(file):
        if at + 8 > len(file):
            raise Fault(f"Cut {at}")
        if file[at : at + 4] == big(SECTION, 4):
            if at + 12 > len(file):
                raise Fault(f"Cut {at}")
            order = order_of(file[at + 8 : at + 12])
            if order is None:
                raise Fault(f"BadBlock {at}")
        kind, total = number_at(file, at, 4, order), number_at(file, at + 4, 4, order)
        if total < LEAST.get(kind, 12) or total % 4:
            raise Fault(f"BadBlock {at}")
        if kind in LEAST and total > LONGEST_BLOCK:
            raise Fault(f"TooLong {at}")
        if at + total > len(file):
            raise Fault(f"Cut {at}")
        if number_at(file, at + total - 4, 4, order) != total:
            raise Fault(f"BadBlock {at}")
        yield at, order, kind, file[at : at + total]
        at += total


def frames_of_blocks(file):
    interfaces = []
    for at, order, kind, content in blocks_of(file):
        if kind == SECTION:
            interfaces = []
        elif kind == INTERFACE:
            interfaces.append(interface_of(content, order))
        elif kind in (SIMPLE, ENHANCED):
            number = number_at(content, 8, 4, order) if kind == ENHANCED else 0
            if number >= min(len(interfaces), MOST_INTERFACES):
                raise Fault(f"NoInterface {at}")
            frame = frame_of(content, order, kind, interfaces[number])
            if frame is None:
                raise Fault(f"BadBlock {at}")
            yield frame


def frame_of(content, order, kind, described):
    """The frame of a packet block, or None if the block is shorter than its frame."""
    if kind == ENHANCED:
        units = number_at(content, 12, 4, order) << 32 | number_at(content, 16, 4, order)
        time, size, start = described.time(units), number_at(content, 20, 4, order), 28
    else:
        time, size, start = None, number_at(content, 8, 4, order), 12
        size = min(size, described.snaplen or size)
    within = content[start:-4]
    return Frame(described.link, time, within[:size]) if size <= len(within) else None


def interface_of(content, order):
    ticks, offset, options = 10**6, 0, content[16:-4]
    while len(options) >= 4:
        code, size = number_at(options, 0, 2, order), number_at(options, 2, 2, order)
        value = options[4 : 4 + size]
        if code == 0 or len(value) < size:
            break
        if code == 9 and size == 1:
            ticks = ticks_of(value[0])
        if code == 14 and size == 8:
            offset = int.from_bytes(value, order, signed=True)
        options = options[4 + size + len(padding(size)) :]
    return Described(number_at(content, 8, 2, order), number_at(content, 12, 4, order), ticks, offset)


def ticks_of(resolution):
    """The units in a second: a power of 10 or, with the high bit, of 2. Greater powers do not fit 64 bits."""
    ticks = 2 ** (resolution - 128) if resolution >= 128 else 10**resolution
    return ticks if ticks < 1 << 64 else None


# The reader of frames.


@dataclass(frozen=True)
class Datagram:
    source: bytes
    source_port: int
    target: bytes
    target_port: int
    payload: bytes


@dataclass(frozen=True)
class Part:
    """A fragment, or a datagram that the capture cut short. The port is None if it is not there."""

    target: bytes
    target_port: int


# Other contents of a frame.
OTHER, UNREAD = "other", "unread"


def carried(frame):
    """What a frame carries: a Datagram, a Part, OTHER or UNREAD."""
    content = frame.content
    if frame.link == ETHERNET:
        return carried_after(content, 14, content[12:14])
    if frame.link == COOKED:
        return carried_after(content, 16, content[14:16])
    if frame.link == COOKED_2:
        return carried_after(content, 20, content[:2])
    if frame.link in (NULL, LOOP):
        return carried_by_ip(content[4:])
    if frame.link == RAW:
        return carried_by_ip(content)
    if frame.link == IPV4_LINK:
        return carried_by_ip(content, (4,))
    if frame.link == IPV6_LINK:
        return carried_by_ip(content, (6,))
    return UNREAD


def carried_after(content, header, protocol):
    """What is carried after the header of a link, by the protocol number that the header has."""
    if len(content) < header:
        return OTHER
    protocol, content, tags = model.number_in(protocol), content[header:], 0
    while protocol in TAGS and tags < MOST_TAGS and len(content) >= 4:
        protocol, content, tags = model.number_in(content[2:4]), content[4:], tags + 1
    versions = {IPV4: (4,), IPV6: (6,)}.get(protocol, ())
    return carried_by_ip(content, versions)


def carried_by_ip(content, versions=(4, 6)):
    version = content[0] >> 4 if content else None
    if version not in versions:
        return OTHER
    return carried_by_ipv4(content) if version == 4 else carried_by_ipv6(content)


def port_in(some_bytes):
    return model.number_in(some_bytes[2:4]) if len(some_bytes) >= 4 else None


def carried_by_ipv4(content):
    if len(content) < 20 or content[9] != UDP:
        return OTHER
    header, total = 4 * (content[0] & 15), model.number_in(content[2:4])
    if not 20 <= header <= total:
        return OTHER
    field, payload = model.number_in(content[6:8]), content[header:total]
    if field & 0x3FFF:
        return Part(content[16:20], None if field & 0x1FFF else port_in(payload))
    return carried_by_udp(content[12:16], content[16:20], payload, total - header)


def carried_by_ipv6(content):
    if len(content) < 40:
        return OTHER
    source, target, protocol = content[8:24], content[24:40], content[6]
    size = model.number_in(content[4:6])
    rest = content[40 : 40 + size]
    for _ in range(MOST_EXTENSIONS):
        passed = size_of_extension(protocol, rest)
        if passed is None or passed > size:
            break
        protocol, rest, size = rest[0], rest[passed:], size - passed
    if protocol == UDP:
        return carried_by_udp(source, target, rest, size)
    if protocol == FRAGMENT and size >= 8 and len(rest) >= 4 and rest[0] == UDP and not is_atomic(rest):
        return Part(target, None if model.number_in(rest[2:4]) >> 3 else port_in(rest[8:]))
    return OTHER


def is_atomic(header):
    """Whether a fragment header is of a packet that was not divided."""
    return model.number_in(header[2:4]) & 0xFFF9 == 0


def size_of_extension(protocol, rest):
    """The size of the extension header at the start, or None if no header is there that is passed over."""
    if len(rest) < 2:
        return None
    if protocol in EXTENSIONS:
        return 8 + 8 * rest[1]
    if protocol == AUTHENTICATION:
        return 8 + 4 * rest[1]
    return 8 if protocol == FRAGMENT and len(rest) >= 4 and is_atomic(rest) else None


def carried_by_udp(source, target, content, size):
    """What is carried by UDP in an IP payload of `size` bytes, of which `content` was captured."""
    if len(content) < size:
        return Part(target, port_in(content))
    length = model.number_in(content[4:6])
    if not 8 <= length <= size:
        return OTHER
    return Datagram(source, model.number_in(content[:2]), target, port_in(content), content[8:length])


# The commands.


@dataclass
class Filter:
    """The ports, the addresses and the session of the options. Nothing given: any."""

    ports: list = field(default_factory=list)
    groups: list = field(default_factory=list)
    session: bytes = b""

    def passes_target(self, target, port):
        return (not self.groups or target in self.groups) and (not self.ports or port is None or port in self.ports)

    def passes(self, datagram):
        is_session = datagram.payload.startswith(self.session)
        return self.passes_target(datagram.target, datagram.target_port) and is_session


@dataclass
class Reading:
    """What files have: the datagrams that pass, each with its time, the name of the file and the number of the frame of
    each, the counts, and the lines of files at fault."""

    datagrams: list = field(default_factory=list)
    frames: list = field(default_factory=list)
    skipped: int = 0
    partial: int = 0
    unread: int = 0
    faults: list = field(default_factory=list)

    def add(self, chosen, frame, name, number):
        found = carried(frame)
        if isinstance(found, Datagram) and chosen.passes(found):
            self.datagrams.append((frame.time, found))
            self.frames.append((name, number))
        elif isinstance(found, Part) and chosen.passes_target(found.target, found.target_port):
            self.partial += 1
        elif found == UNREAD:
            self.unread += 1
        else:
            self.skipped += 1


def read(chosen, files):
    """The files are names with bytes, or with None for a folder."""
    reading = Reading()
    for name, content in files:
        content = Unread() if content is None else content
        why = None
        try:
            for number, frame in enumerate(frames_of(content), 1):
                reading.add(chosen, frame, name, number)
        except Fault as fault:
            why = str(fault)
        # More bytes are read only if those before have no other fault.
        if isinstance(content, Unread) and (why is None or why.startswith("Cut ")):
            why = f"Unread {len(content)}"
        if why:
            reading.faults.append(f"capture {name} {why}")
    return reading


def address_text(some_bytes):
    if len(some_bytes) == 4:
        return ".".join(map(str, some_bytes))
    digits = some_bytes.hex()
    return ":".join(digits[at : at + 4] for at in range(0, 32, 4))


def end_text(some_bytes, port):
    """An address with its port."""
    text = address_text(some_bytes)
    return f"[{text}]:{port}" if ":" in text else f"{text}:{port}"


def target_of(datagram):
    return end_text(datagram.target, datagram.target_port)


def first_lines(reading):
    """The counts, and the lines of files at fault."""
    counts = f"datagrams {len(reading.datagrams)} skipped {reading.skipped}"
    return "\n".join([f"{counts} partial {reading.partial} unread {reading.unread}", *reading.faults])


def sessions_of(reading):
    """The sessions of the datagrams that encode packets."""
    found = set()
    for _, datagram in reading.datagrams:
        try:
            found.add(model.packet_of(datagram.payload).session)
        except model.Refused:
            pass
    return found


def place_of(reading, number):
    """The line that states where a datagram is, by its number among those that pass."""
    (time, datagram), (name, frame) = reading.datagrams[number - 1], reading.frames[number - 1]
    where = f"at {time_text(time)} to {target_of(datagram)} of {name}"
    return model.text_of([f"datagram {number} is frame {frame} {where}"])


def without_partial(reading, text):
    """The line on standard error that states what the verdicts `whole` of the text leave out."""
    is_whole = re.search(rb"^whole ", text, re.MULTILINE)
    return b"the verdict does not include the partial datagrams\n" if is_whole and reading.partial else b""


def check_of(chosen, files):
    """The check of captures, the text that explains a refusal on standard error, and the text there that explains the
    verdict."""
    reading, taken = read(chosen, files), []

    def taking(datagram):
        taken.append(datagram)
        return datagram.payload

    captured = [(f"datagram {number}", lambda it=it: taking(it)) for number, (_, it) in enumerate(reading.datagrams, 1)]
    check = model.check_of(first_lines(reading), captured, bool(reading.faults))
    is_several = len(sessions_of(reading)) > 1
    several = b"the input has several sessions: add --each or --session SESSION\n" if is_several else b""
    explained = several + without_partial(reading, check.report()[0])
    if not check.refusal:
        return check, b"", explained
    is_other = target_of(taken[-1]) != target_of(taken[0])
    return check, place_of(reading, len(taken)) + (b"see mold sessions\n" if is_other else b""), explained


def check_text(chosen, files):
    """The text, the status, no file, and the text on standard error."""
    check, errors, explained = check_of(chosen, files)
    return *check.report(), None, errors + explained


def check_and_save(chosen, files):
    """The text and the status of `check --journal`, the journal, or None, and the text on standard error."""
    check, errors, explained = check_of(chosen, files)
    return *check.save(), errors + explained


def extract(chosen, files, form, first, count):
    """The text and the status of `extract`, the file that it writes, or None, and the text on standard error."""
    check, errors, _ = check_of(chosen, files)
    return *check.extract(form, first, count), errors


def by_digest(text):
    """The text of a check with `--digest`, given the text without it."""
    return re.sub(rb"^(whole \d+)$", rb"\1 by digest", text, flags=re.MULTILINE)


def check_by_digest(chosen, files):
    """The same as `check_text`, for `check --digest`."""
    text, *others = check_text(chosen, files)
    return by_digest(text), *others


def check_each(chosen, files):
    """The text and the status of `check --each`, no file, and the text on standard error."""
    reading = read(chosen, files)
    captured = [(f"datagram {number}", it.payload) for number, (_, it) in enumerate(reading.datagrams, 1)]
    text, statuses = model.each_session(captured)
    status = 2 if reading.faults else max(statuses, default=1)
    return model.text_of([first_lines(reading)]) + text, status, None, without_partial(reading, text)


def time_text(time):
    return "none" if time is None else f"{time // BILLION}.{time % BILLION:09}"


def show_text(chosen, files):
    """The text, and the status."""
    reading = read(chosen, files)
    output, status = [], 2 if reading.faults else 0
    for time, datagram in reading.datagrams:
        source = end_text(datagram.source, datagram.source_port)
        output.append(f"at {time_text(time)} from {source} to {target_of(datagram)}")
        try:
            output += model.lines_of_packet(model.packet_of(datagram.payload))
        except model.Refused as why:
            output.append(f"refused {why}")
            status = 2
    return model.text_of(output + reading.faults), status


def numbers_of(packets):
    """The least and the greatest number of a message of the packets, or `none` twice."""
    carrying = [it for it in packets if it.messages]
    if not carrying:
        return "none none"
    return f"{min(it.sequence for it in carrying)} {max(it.top() for it in carrying) - 1}"


def sessions_text(chosen, files):
    """The text, and the status."""
    reading, found = read(chosen, files), {}
    for _, datagram in reading.datagrams:
        try:
            packet = model.packet_of(datagram.payload)
        except model.Refused:
            packet = None
        key = target_of(datagram), packet and packet.session
        found.setdefault(key, []).append(packet)
    output = [line_of_session(target, session, packets) for (target, session), packets in found.items()]
    output.append(f"skipped {reading.skipped} partial {reading.partial} unread {reading.unread}")
    return model.text_of(output + reading.faults), 2 if reading.faults else 0


def line_of_session(target, session, packets):
    if session is None:
        return f"to {target} session none refused {len(packets)}"
    beats = sum(it.kind == "heartbeat" for it in packets)
    ends = [it.sequence for it in packets if it.kind == "end"] or ["none"]
    head = f"to {target} session {session.hex()} datagrams {len(packets)}"
    return f"{head} messages {numbers_of(packets)} heartbeats {beats} end {ends[-1]}"


COMMANDS = {"check": check_text, "show": show_text, "sessions": sessions_text}
# The options of `check`.
OPTIONS = {"--each": check_each, "--digest": check_by_digest, "--journal": check_and_save}


def run(command, chosen, files, option="", numbers=()):
    """The text and the status of a command, the file that it writes, or None, and the text on standard error. `check`
    may have an option. For `extract` the option is the form of the messages, and its numbers are `--from` and
    `--count`."""
    if command == "extract":
        return extract(chosen, files, option, *numbers)
    found = (OPTIONS[option] if option else COMMANDS[command])(chosen, files)
    return (*found, None, b"")[:4]
