"""Random captures, by a seed, for tests/captures: datagrams of sessions in frames of all link types, in files of all
formats, and calls of the commands that read them, with filters. Some frames and files are damaged."""
from dataclasses import dataclass

import captures_model as captures
import generators
import model
from generators import has

LINKS = [captures.ETHERNET] * 4 + [captures.RAW, captures.COOKED, captures.COOKED_2, captures.NULL, captures.LOOP]
LINKS += [captures.IPV4_LINK, captures.IPV6_LINK]
UNREAD_LINKS = [6, 12, 105, 127, 147, 65535]
GROUPS_4, GROUPS_6 = ["239.1.1.1", "239.1.1.2", "10.0.0.9"], ["ff02::1:2", "2001:db8::9"]
PORTS = [26400, 26401, 1, 65535]
SESSIONS = [model.padded(it) for it in (generators.NAME, "SESSION002", "A")]
ORDERS, UNITS = ["big", "little"], ["microseconds", "nanoseconds"]
RESOLUTIONS = [None, 0, 3, 6, 9, 12, 19, 20, 127, 128, 138, 191, 192, 255]
# tshark computes wrong times with resolutions above 10^10 or so, because its numbers of 64 bits overflow.
PLAIN_RESOLUTIONS = [None, None, 3, 6, 9, 138, 148]
OFFSETS = [None, None, 1, 1700000000, -1, -5, (1 << 63) - 1, -(1 << 63)]
# What a block of a kind that is not read is, or of the obsolete packet block.
OTHER_KINDS = [2, 4, 5, 0x0BAD, 0x80000001, 0xFFFFFFFF]
# The commands with an option of `check`, or the form of `extract`. One that is in the list more often is drawn more
# often.
CALLS = 2 * [("check", ""), ("check", "--journal"), ("extract", "--lines"), ("extract", "--blocks")]
CALLS += [("check", "--each"), ("check", "--digest"), *3 * [("show", ""), ("sessions", "")]]
# The file that `check --journal` or `extract` writes.
MADE = "made"


@dataclass
class Case:
    """A call of a command."""

    command: str
    arguments: list
    chosen: captures.Filter
    # The captures with their names. The file `-` is standard input.
    files: list
    # An option of `check`, the form of `extract`, or nothing. The arguments have it too.
    option: str = ""
    # The values of `--from` and `--count` of `extract`.
    numbers: tuple = ()
    # What the file MADE has before the call, or None if it does not exist.
    former: bytes = None

    def before(self):
        """All files before the call."""
        return self.files + ([] if self.former is None else [(MADE, self.former)])

    def expected(self):
        """The text, the status, what the file MADE has after the call, and the text on standard error."""
        text, status, file, errors = captures.run(self.command, self.chosen, self.files, self.option, self.numbers)
        return text, status, self.former if file is None else file, errors


def units(chance, is_plain=False):
    if is_plain:
        return chance.choice([0, 1, 1700000000123456789, chance.getrandbits(40)])
    edges = [0, 1, 10**6, 1700000000 * 10**6 + 1, 1700000000 * 10**9, model.GREATEST]
    return chance.choice([*edges, chance.getrandbits(64)])


def extensions(chance, is_plain):
    """Extension headers of IPv6. There may be more than are passed over."""
    most = chance.choice([0, 0, 1, 2, 3]) if is_plain else chance.choice([0, 1, 2, 7, 8, 9])
    drawn = []
    for _ in range(most):
        kinds = [60, 60, captures.AUTHENTICATION, captures.FRAGMENT]
        kind = chance.choice(kinds if is_plain else kinds + [*captures.EXTENSIONS, 50, 59])
        if kind == captures.FRAGMENT:
            drawn.append(captures.fragment_header(0 if is_plain else chance.choice([0, 0, 2, 6])))
        else:
            drawn.append(captures.extension(kind, chance.choice([0, 1, 2])))
    return drawn


def packet_of_4(chance, content, target, is_plain):
    """An IPv4 packet with this payload, mostly whole."""
    # No operation, which every reader passes over.
    options = {"options": b"\1" * chance.choice([0, 0, 0, 4, 8, 40])}
    if not is_plain and has(chance, 0.1):
        options["fragment"] = chance.choice([0x2000, 0x2001, 1, 0x4000, 0x8000, 0x1FFF, 0x3FFF])
    if not is_plain and has(chance, 0.05):
        options["total"] = chance.choice([0, 19, 20, 27, 28, 29, 65535])
    if not is_plain and has(chance, 0.04):
        options["protocol"] = chance.choice([1, 6, 136])
    return captures.ipv4(content, "10.0.0.%d" % chance.randint(1, 3), target, **options)


def packet_of_6(chance, content, target, is_plain):
    """An IPv6 packet with this payload, mostly whole."""
    headers = extensions(chance, is_plain)
    if not is_plain and has(chance, 0.08):
        headers.append(captures.fragment_header(chance.choice([1, 8, 9, 0xFFF8])))
    options = {"extensions": headers}
    if not is_plain and has(chance, 0.05):
        options["size"] = chance.choice([0, 7, 8, 9, 65535])
    if not is_plain and has(chance, 0.04):
        options["protocol"] = chance.choice([1, 6, 58])
    return captures.ipv6(content, "fe80::%x" % chance.randint(1, 3), target, **options)


def frame(chance, link, payload, target, port, is_plain=False):
    """A frame of a link type with this payload."""
    size = None
    if not is_plain and has(chance, 0.04):
        size = chance.choice([0, 7, 8, 9, 65535, 8 + len(payload) - 1, 8 + len(payload) + 1])
    content = captures.udp(payload, (chance.choice([5000, 5001]), port), size)
    content += bytes(2) if not is_plain and has(chance, 0.03) else b""
    packet = packet_of_6(chance, content, target, is_plain) if ":" in target else \
        packet_of_4(chance, content, target, is_plain)
    most = 2 if is_plain else 3
    tags = [chance.choice(captures.TAGS) for _ in range(chance.choice([0, 0, 0, 1, most]))]
    if link in (captures.COOKED, captures.COOKED_2) and is_plain:
        tags = tags[:1]
    protocol = chance.choice([0x0806, 0x0800, 0x86DD, 0x0600]) if not is_plain and has(chance, 0.03) else None
    made = captures.linked(link, packet, tags, protocol)
    # Short frames of Ethernet are padded.
    made += bytes(chance.choice([1, 18, 40])) if link == captures.ETHERNET and has(chance, 0.2) else b""
    if is_plain:
        return made
    if has(chance, 0.1):
        # The snapshot length cuts frames.
        made = made[: chance.choice([0, 14, 34, 38, 42, 54, 62, chance.randint(0, len(made))])]
    return generators.damaged(chance, made) if has(chance, 0.08) else made


def some_session(chance, counts=(0, 1, 3, 12), longest=42):
    """The name of a session, and messages. There are as many as one of the counts."""
    return chance.choice(SESSIONS), [generators.message(chance, longest) for _ in range(chance.choice(counts))]


def payloads(chance):
    """The payloads of a capture with their destinations. Mostly they are those of one session."""
    drawn = []
    for _ in range(chance.choice([1, 1, 1, 2])):
        group, port = chance.choice(GROUPS_4 * 2 + GROUPS_6), chance.choice(PORTS)
        session, messages = some_session(chance)
        sent = [generators.captured(chance, session, messages) for _ in range(chance.choice([0, 0, 1, 3, 8]))]
        packets = model.packing(chance.choice([64, 100, 1400]), session, 1, messages)
        sent += [model.encoding(it) for it in packets if has(chance, 0.9)]
        sent += [model.encoding(model.Packet("end", session, len(messages) + 1))] if has(chance, 0.7) else []
        sent += [chance.choice([b"", b"x", bytes(20)])] if has(chance, 0.05) else []
        drawn += [(it, group, port) for it in sent if len(it) < 60000]
    if has(chance, 0.3):
        chance.shuffle(drawn)
    return drawn


def whole_payloads(chance):
    """The payloads of a whole session that is sent on one or two lines, with their destinations."""
    # The program writes files in pieces of about 64 KiB.
    counts, longest, limits = ([400], 1378, [1400, 9000]) if has(chance, 0.03) else ([0, 1, 3, 12], 42, [64, 100, 1400])
    (session, messages), drawn = some_session(chance, counts, longest), []
    for group in chance.sample(GROUPS_4 + GROUPS_6, chance.choice([1, 2])):
        packets = model.packing(chance.choice(limits), session, 1, messages)
        packets.append(model.Packet("end", session, len(messages) + 1))
        port = chance.choice(PORTS)
        drawn += [(model.encoding(it), group, port) for it in packets]
    return chance.sample(drawn, len(drawn)) if has(chance, 0.3) else drawn


def fitting(chance, link, group):
    """A link type on which packets to this address can be."""
    if link == captures.IPV4_LINK and ":" in group or link == captures.IPV6_LINK and ":" not in group:
        return captures.ETHERNET
    return link


def classic(chance, datagrams, is_plain=False):
    order, unit, link = chance.choice(ORDERS), chance.choice(UNITS), chance.choice(LINKS)
    if any(fitting(chance, link, group) != link for _, group, _ in datagrams):
        link = captures.RAW
    stated = link if is_plain or has(chance, 0.95) else chance.choice(UNREAD_LINKS)
    # The upper half of the field does not belong to the link type.
    stated += 0 if is_plain or has(chance, 0.9) else 0x14000000
    file = captures.classic_head(order, unit, stated)
    for second, (payload, group, port) in enumerate(datagrams, 1700000000):
        fraction = chance.choice([0, 1, 999999, 999999999, 0 if is_plain else 0xFFFFFFFF])
        drawn = frame(chance, link, payload, group, port, is_plain)
        file += captures.record(drawn, order, second, fraction % captures.PER_SECOND[unit] if is_plain else fraction)
    return file


def new_interfaces(chance, order, is_plain):
    """The descriptions of the interfaces of a section, and their link types."""
    links = [chance.choice(LINKS) for _ in range(chance.choice([1, 1, 2, 3]))]
    descriptions = []
    for link in links:
        snaplen = 0 if is_plain else chance.choice([0, 0, 60, 262144])
        resolution = chance.choice(PLAIN_RESOLUTIONS if is_plain else RESOLUTIONS)
        options = captures.clock(order, resolution, None if is_plain else chance.choice(OFFSETS))
        if not is_plain and has(chance, 0.2):
            name = captures.option(2, b"eth0", order)
            ended = captures.option(0, b"", order)
            ignored = [captures.option(9, b"\3\3", order), captures.option(14, bytes(4), order)]
            options = chance.choice([name + options, ended + options, options[:-5], chance.choice(ignored) + options])
        stated = link if is_plain or has(chance, 0.95) else chance.choice(UNREAD_LINKS)
        descriptions.append(captures.interface(stated, order, snaplen, options))
    return links, b"".join(descriptions)


def other_block(chance, order):
    content = chance.randbytes(4 * chance.choice([0, 1, 5, 40]))
    return captures.block(chance.choice(OTHER_KINDS), content, order)


def packet_block(chance, links, datagram, order, is_plain):
    """A packet block of one of the interfaces with these link types."""
    payload, group, port = datagram
    number = chance.randrange(len(links))
    is_simple = has(chance, 0.2)
    link = links[0] if is_simple else links[number]
    if is_plain and fitting(chance, link, group) != link:
        return b""
    drawn = frame(chance, link, payload, group, port, is_plain)
    if is_simple:
        return captures.simple(drawn, order, None if is_plain or has(chance, 0.8) else len(drawn) + 100)
    if not is_plain and has(chance, 0.01):
        number = len(links)
    # A comment.
    options = captures.option(1, b"ab", order) + captures.option(0, b"", order) if has(chance, 0.2) else b""
    return captures.enhanced(drawn, order, number, units(chance, is_plain), options=options)


def pcapng(chance, datagrams, is_plain=False):
    file, links, order = b"", [], "big"
    for at, datagram in enumerate(datagrams or [None]):
        if at == 0 or has(chance, 0.1):
            order = chance.choice(ORDERS)
            links, descriptions = new_interfaces(chance, order, is_plain)
            file += captures.section(order) + descriptions
        if not is_plain and has(chance, 0.1):
            file += other_block(chance, order)
        if datagram:
            file += packet_block(chance, links, datagram, order, is_plain)
    return file


def damaged_file(chance, file):
    way = chance.randrange(5)
    if way == 0:
        return file[: chance.randint(0, len(file))]
    if way == 1:
        return file + chance.randbytes(chance.choice([1, 4, 8, 12, 16]))
    if way == 2:
        # The first bytes decide about a format.
        at = chance.randrange(min(28, len(file)) or 1)
        return file[:at] + bytes([chance.randrange(256)]) + file[at + 1 :]
    return generators.damaged(chance, file)


def some_filter(chance, datagrams):
    """A filter that mostly lets datagrams of these pass, and its arguments."""
    chosen, arguments = captures.Filter(), []
    groups, ports = [group for _, group, _ in datagrams], [port for _, _, port in datagrams]
    if has(chance, 0.3):
        chosen.ports = sorted([chance.choice(ports + PORTS[:1]), *chance.choice([[], [PORTS[1]], [26400]])])
        arguments += [["--port", str(it)] for it in chosen.ports]
    if has(chance, 0.3):
        drawn = [chance.choice(groups + GROUPS_4[:1]), *chance.choice([[], [GROUPS_6[0]]])]
        chosen.groups = [captures.address(it) for it in drawn]
        arguments += [["--group", captures.address_text(it)] for it in chosen.groups]
    return chosen, arguments


def files_of(chance, datagrams, is_plain):
    """Captures of these datagrams with their names. Some are damaged, and few are folders. If they are plain, no frame
    is damaged."""
    files, parts = [], chance.choice([1, 1, 1, 2, 3])
    for number in range(parts):
        part = datagrams[len(datagrams) * number // parts : len(datagrams) * (number + 1) // parts]
        file = chance.choice([classic, pcapng])(chance, part, is_plain)
        files.append((f"file{number}", damaged_file(chance, file) if has(chance, 0.2) else file))
    if has(chance, 0.2):
        at = chance.randrange(parts)
        files[at] = ("-", files[at][1])
    if has(chance, 0.05):
        # A folder can be opened, and not read.
        files.insert(chance.randint(0, parts), ("folder", None))
    return files


def own_arguments(chance, command, option):
    """The arguments of a command that are neither captures nor filters, and the numbers of a range of messages."""
    if command == "extract":
        options, given = generators.number_range(chance)
        written = [generators.option_arguments(chance, {name: it}) for name, it in (options | {"to": MADE}).items()]
        return [[option], *written], tuple(given.values())
    if option == "--journal":
        return [generators.option_arguments(chance, {"journal": MADE})], ()
    return [[option]] if option else [], ()


def case(chance):
    command, option = chance.choice(CALLS)
    is_writing = command == "extract" or option == "--journal"
    # Few of the other payloads are those of a whole session.
    is_whole = is_writing and has(chance, 0.7)
    datagrams = whole_payloads(chance) if is_whole else payloads(chance)
    files = files_of(chance, datagrams, is_whole and has(chance, 0.6))
    chosen, others = some_filter(chance, datagrams)
    if command != "sessions" and has(chance, 0.3):
        names = [it[:10] for it, _, _ in datagrams if it[:10] in SESSIONS]
        chosen.session = chance.choice(names + SESSIONS)
        others.append(["--session", chosen.session.decode().rstrip()])
    own, numbers = own_arguments(chance, command, option)
    # The order of the files is that of their options.
    arguments = [["--capture", name] for name, _ in files]
    for it in others + own:
        arguments.insert(chance.randint(0, len(arguments)), it)
    former = chance.choice(generators.FORMER) if is_writing else None
    return Case(command, [word for words in arguments for word in words], chosen, files, option, numbers, former)


def plain_file(chance):
    """A file without damage, whose frames every reader reads alike."""
    datagrams = [(it, group, port) for it, group, port in payloads(chance) if it]
    return chance.choice([classic, pcapng])(chance, datagrams, True)
