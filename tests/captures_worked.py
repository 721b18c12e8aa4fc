"""Worked cases of captures, for tests/captures. The expected texts are written by hand from the rule, and not by the
model. CASES has the cases, SMALL the captures that are cut at each byte, and FRAMES the frames that are.
"""
import re
from dataclasses import dataclass

import captures_model as captures
import model
from captures_model import ethernet, ipv4, ipv6, linked, udp

S, HEX, PORT = b"SESSION001", "53455353494f4e303031", 26400
OTHER, HEX_OTHER = b"OTHER     ", "4f544845522020202020"
ONE = model.encoding(model.Packet("data", S, 1, (b"A",)))
TWO = model.encoding(model.Packet("data", S, 2, (b"B", b"")))
BEAT = model.encoding(model.Packet("heartbeat", S, 1))
END = model.encoding(model.Packet("end", S, 2))
OTHER_END = model.encoding(model.Packet("end", OTHER, 9))
# The whole session of one message.
WHOLE = "datagrams 2 skipped 0 partial 0 unread 0\nwhole 1\n"
# The end of the text without an end of session, and without a gap.
NOTHING = "incomplete end none\n"
LINKS = {"Ethernet": captures.ETHERNET, "raw IP": captures.RAW, "raw IPv4": captures.IPV4_LINK,
         "raw IPv6": captures.IPV6_LINK, "Linux cooked": captures.COOKED, "Linux cooked 2": captures.COOKED_2,
         "BSD loopback, null": captures.NULL, "BSD loopback": captures.LOOP}


@dataclass
class Case:
    """A call in a folder with these files. The file `-` is standard input. `errors` is the text on standard error, or
    a pattern of it."""

    name: str
    call: str
    files: dict
    text: str = ""
    status: int = 0
    errors: object = ""


CASES = []


def add(name, call, files, text, status=0, errors=""):
    files = {"f": files} if isinstance(files, bytes) else files
    CASES.append(Case(name, call, files, text, status, errors))


def place(number, frame, name="f", target="239.1.1.1:26400"):
    """The line on standard error for a refused datagram. In these captures each frame is at a second of its own."""
    return f"datagram {number} is frame {frame} at {frame}.000000000 to {target} of {name}\n"


SEE = "see mold sessions\n"
SEVERAL = "the input has several sessions: add --each or --session SESSION\n"
PARTIAL = "the verdict does not include the partial datagrams\n"


def check(name, file, text, status=1, options="", errors=None):
    """If no text on standard error is given, a refused datagram is in the frame with its number, at the only group."""
    refused = re.search(r"^refused datagram (\d+)", text, re.M)
    own = place(refused[1], refused[1]) if refused else ""
    add(name, f"check --capture f{options}", file, text, status, own if errors is None else errors)


def counts(datagrams, skipped=0, partial=0, unread=0):
    return f"datagrams {datagrams} skipped {skipped} partial {partial} unread {unread}\n"


def to_group(payload, group="239.1.1.1", port=PORT):
    return ethernet(ipv4(udp(payload, (5000, port)), target=group))


def of_packets(*packets):
    return captures.classic([ethernet(it) for it in packets])


def of_payloads(*payloads):
    return captures.classic([to_group(it) for it in payloads])


def address(last):
    """The text of an address of IPv6."""
    return f"ff02:0000:0000:0000:0000:0000:0000:{last:04x}"


# What a frame carries.


def add_links():
    packets = {"IPv4": ipv4, "IPv6": ipv6}
    for name, link in LINKS.items():
        for version, make in packets.items():
            frames = [linked(link, make(udp(it))) for it in (ONE, END)]
            is_read = not (link == captures.IPV4_LINK and make is ipv6 or link == captures.IPV6_LINK and make is ipv4)
            text = WHOLE if is_read else counts(0, 2) + NOTHING
            check(f"{version} over {name}", captures.classic(frames, link=link), text, 0 if is_read else 1)
    for link in (6, 12, 105, 127, 65535):
        check(f"link type {link}", captures.classic([b"", to_group(ONE)], link=link), counts(0, 0, 0, 2) + NOTHING)


def add_tags():
    for tag in captures.TAGS:
        frames = [ethernet(ipv4(udp(ONE)), [tag]), ethernet(ipv6(udp(END)), [tag])]
        check(f"tag {tag:04x}", captures.classic(frames), WHOLE, 0)
    frames = [ethernet(ipv4(udp(ONE)), [0x88A8, 0x8100]), ethernet(ipv4(udp(END)), [0x9100, 0x9100])]
    check("two tags", captures.classic(frames), WHOLE, 0)
    three = ethernet(ipv4(udp(ONE)), [0x8100] * 3)
    check("three tags", captures.classic([three]), counts(0, 1) + NOTHING)
    check("other protocols of Ethernet", captures.classic([
        ethernet(ipv4(udp(ONE)), (), 0x0806), ethernet(ipv4(udp(ONE)), (), 60),
        ethernet(ipv4(udp(ONE)), (), captures.IPV6), ethernet(ipv6(udp(ONE)), (), captures.IPV4),
        ethernet(b"", (), 0x8100), b"", bytes(13),
    ]), counts(0, 7) + NOTHING)
    check("the loopback family is not judged",
          captures.classic([b"\xff" * 4 + ipv4(udp(ONE)), bytes(4) + ipv6(udp(END))], link=captures.LOOP), WHOLE, 0)
    check("the version of raw IP", captures.classic([b"\x55" + bytes(40), b"", b"\x45"], link=captures.RAW),
          counts(0, 3) + NOTHING)


def add_ipv4():
    options = b"\1" * 40
    check("IPv4 options and padding",
          captures.classic([ethernet(ipv4(udp(ONE), options=options)), to_group(END) + bytes(18)]), WHOLE, 0)
    check("flags without fragments", of_packets(ipv4(udp(ONE), fragment=0x4000), ipv4(udp(END), fragment=0x8000)),
          WHOLE, 0)
    check("checksums are not judged", of_packets(
        ipv4(udp(ONE)[:6] + b"\xab\xcd" + ONE), ipv4(udp(END))[:10] + b"\xab\xcd" + ipv4(udp(END))[12:]), WHOLE, 0)
    check("other packets of IPv4", of_packets(
        ipv4(udp(ONE), protocol=6), ipv4(udp(ONE), protocol=1), ipv4(udp(ONE), protocol=6, fragment=0x2000),
        ipv4(udp(ONE), total=0), ipv4(udp(ONE), total=19), b"\x44" + ipv4(udp(ONE))[1:], ipv4(udp(ONE))[:19],
    ), counts(0, 7) + NOTHING)
    # Bytes 16 to 23 of these packets could be the header of a datagram.
    short = ipv4(udp(ONE, (12 + len(ONE), PORT)))
    check("IPv4 headers that are too short", of_packets(b"\x44" + short[1:], ipv4(udp(ONE), total=0, fragment=0x2000),
                                                        ipv4(udp(ONE), total=19, fragment=1)), counts(0, 3) + NOTHING)
    check("an IPv4 packet of 28 bytes has an empty payload", of_packets(ipv4(udp(b""))),
          counts(1) + "refused datagram 1 Malformed Short 0\n", 2)


def add_fragments():
    first, last = ipv4(udp(ONE)[:16], fragment=0x2000), ipv4(udp(ONE)[16:], fragment=2)
    both = of_packets(first, last)
    check("fragments", both, counts(0, 0, 2) + NOTHING)
    check("fragments by their port", both, counts(0, 0, 2) + NOTHING, 1, " --port 26400")
    check("fragments of another port", both, counts(0, 1, 1) + NOTHING, 1, " --port 1")
    check("fragments of another group", both, counts(0, 2) + NOTHING, 1, " --group 239.1.1.2")
    check("fragments by port and group", both, counts(0, 1, 1) + NOTHING, 1, " --port 1 --group 239.1.1.1")
    check("a fragment without its port", of_packets(ipv4(udp(ONE)[:3], fragment=0x2000)), counts(0, 0, 1) + NOTHING, 1,
          " --port 1")
    # The ports are not in the fragments, but in the padding after them.
    padded = [ipv4(b"\x13\x88", fragment=0x2000), ipv6(b"\x13\x88", extensions=[captures.fragment_header(1)])]
    check("padding after a fragment", of_packets(*(it + bytes(18) for it in padded)), counts(0, 0, 2) + NOTHING, 1,
          " --port 1")
    cut_header = captures.FRAGMENT, bytes(1) + captures.big(1) + bytes(2)
    check("a packet of 6 bytes of a fragment header", of_packets(ipv6(b"", extensions=[cut_header])),
          counts(0, 1) + NOTHING)
    headers = [captures.fragment_header(1), captures.fragment_header(8)]
    both = of_packets(*(ipv6(udp(ONE), extensions=[captures.extension(60), it]) for it in headers))
    check("fragments of IPv6", both, counts(0, 1, 1) + NOTHING, 1, " --port 1")
    # The group of a fragment is there if its port is not.
    check("fragments of IPv6 by their group", both, counts(0, 2) + NOTHING, 1, f" --group {address(1)}")
    check("fragments of another protocol", of_packets(
        ipv6(bytes(16), protocol=6, extensions=[captures.fragment_header(1)]), ipv4(bytes(16), protocol=6, fragment=9),
    ), counts(0, 2) + NOTHING)


def add_cut():
    frame = to_group(ONE)
    for size, text in ((len(frame) - 1, "payload"), (42, "payload"), (41, "UDP header"), (38, "ports")):
        check(f"a frame cut after {size} bytes, in its {text}", captures.classic([frame[:size]]),
              counts(0, 0, 1) + NOTHING)
        check(f"a frame cut after {size} bytes, of another port", captures.classic([frame[:size]]),
              counts(0, 1) + NOTHING, 1, " --port 1")
    # Without its port, a frame counts by its group alone.
    for size in (37, 34):
        check(f"a frame cut after {size} bytes, without its port", captures.classic([frame[:size]]),
              counts(0, 0, 1) + NOTHING, 1, " --port 1")
        check(f"a frame cut after {size} bytes, of another group", captures.classic([frame[:size]]),
              counts(0, 1) + NOTHING, 1, " --group 239.1.1.2")
    for size in (33, 14, 13, 0):
        check(f"a frame cut after {size} bytes", captures.classic([frame[:size]]), counts(0, 1) + NOTHING)
    frame = ethernet(ipv6(udp(ONE), extensions=[captures.extension(0, 1)]))
    check("frames of IPv6 that are cut", captures.classic([frame[:it] for it in (14, 53, 55, 56, 70, 74, 80, 100)]),
          counts(0, 3, 5) + NOTHING)
    check("padding that is cut", captures.classic_head() + captures.record(to_group(ONE), original=90) +
          captures.record(to_group(END) + b"\0", original=90), WHOLE, 0)


def add_udp():
    lengths = [(0, ONE), (7, ONE), (8 + len(ONE) + 1, ONE), (65535, ONE)]
    check("lengths of UDP that are wrong", of_packets(*(ipv4(udp(it, size=size)) for size, it in lengths)),
          counts(0, 4) + NOTHING)
    check("bytes after the length of UDP", of_packets(
        ipv4(udp(ONE + b"xyz", size=8 + len(ONE))), ipv6(udp(END + b"xyz", size=8 + len(END)))), WHOLE, 0)


def add_ipv6():
    for number in (*captures.EXTENSIONS, captures.AUTHENTICATION):
        packets = [ipv6(udp(it), extensions=[captures.extension(number, units)])
                   for it, units in ((ONE, 0), (END, 2))]
        check(f"extension header {number}", of_packets(*packets), WHOLE, 0)
    atomic = captures.fragment_header(0)
    check("a fragment header of a whole packet",
          of_packets(ipv6(udp(ONE), extensions=[atomic]), ipv6(udp(END), extensions=[captures.fragment_header(6)])),
          WHOLE, 0)
    eight = [captures.extension(60)] * 7 + [captures.extension(43)]
    check("eight extension headers", of_packets(ipv6(udp(ONE), extensions=eight), ipv6(udp(END))), WHOLE, 0)
    nine = of_packets(ipv6(udp(ONE), extensions=[captures.extension(60)] * 9))
    check("nine extension headers", nine, counts(0, 1) + NOTHING)
    check("other packets of IPv6", of_packets(
        ipv6(udp(ONE), protocol=6), ipv6(udp(ONE), protocol=59), ipv6(udp(ONE), protocol=50),
        ipv6(udp(ONE), size=0), ipv6(udp(ONE))[:39], ipv6(b"\x11\x01" + bytes(6), protocol=60),
    ), counts(0, 6) + NOTHING)


# Files.


def add_formats():
    for order in ("big", "little"):
        for unit in captures.MAGICS:
            file = captures.classic([to_group(ONE), to_group(END)], order, unit)
            check(f"classic, {order}, {unit}", file, WHOLE, 0)
        file = captures.pcapng([to_group(ONE), to_group(END)], order)
        check(f"pcapng, {order}", file, WHOLE, 0)
        file = captures.section(order) + captures.interface(1, order) + captures.simple(to_group(ONE), order) + \
            captures.simple(to_group(END), order)
        check(f"simple packets, {order}", file, WHOLE, 0)
    check("the check sequence in the link type",
          captures.classic_head(link=0x24000001) + captures.record(to_group(ONE)) + captures.record(to_group(END)),
          WHOLE, 0)
    check("the minor version is not judged", of_payloads(ONE, END)[:6] + b"\xff\xff" + of_payloads(ONE, END)[8:],
          WHOLE, 0)
    check("version 3", captures.classic_head(version=3), counts(0) + "capture f NoCapture\n" + NOTHING, 2)
    for name, file in (("text", b"# no capture\n"), ("four zeros", bytes(4)), ("a journal", b"MOLDJNL2" + S)):
        check(f"no capture: {name}", file, counts(0) + "capture f NoCapture\n" + NOTHING, 2)


def add_blocks():
    parts = [captures.section("big", captures.option(2, b"machine", "big")), captures.interface(101, "big")]
    parts += [captures.enhanced(ipv4(udp(ONE)), "big", options=captures.option(1, b"a comment", "big"))]
    parts += [captures.section("little"), captures.interface(6), captures.interface(1), captures.interface(101)]
    parts += [captures.enhanced(ipv6(udp(END)), number=2), captures.enhanced(b"token ring", number=0)]
    check("sections of both byte orders", b"".join(parts), counts(2, 0, 0, 1) + "whole 1\n", 0)
    others = [captures.block(kind, bytes(size)) for kind, size in
              ((2, 0), (4, 20), (5, 40), (0x0BAD, 400000), (0xFFFFFFFF, 4))]
    parts = [captures.section(), *others, captures.interface(), *others, captures.enhanced(to_group(ONE)), *others]
    check("blocks that are passed over", b"".join(parts) + captures.enhanced(to_group(END)), WHOLE, 0)
    start = captures.section() + captures.interface(snaplen=44)
    frame = to_group(ONE)
    check("a simple packet that is cut", start + captures.simple(frame[:44], original=len(frame)),
          counts(0, 0, 1) + NOTHING)
    check("a section without packets", captures.section(), counts(0) + NOTHING)
    file = captures.section() + captures.interface() + captures.enhanced(to_group(ONE), size=len(to_group(ONE)),
                                                                         original=9000)
    check("the original length is not judged", file + captures.enhanced(to_group(END)), WHOLE, 0)


def at_fault(name, file, fault, datagrams=0):
    """A capture at fault. It has no datagram before the fault, or that of message 1."""
    check(f"{fault}: {name}", file, counts(datagrams) + f"capture f {fault}\n" + NOTHING, 2)


def add_faults_of_records():
    head, one = captures.classic_head(), captures.record(to_group(ONE))
    at_fault("an empty file", b"", "Cut 0")
    at_fault("a file of three bytes", b"abc", "Cut 0")
    at_fault("the head", head[:23], "Cut 0")
    check("a capture without records", head, counts(0) + NOTHING)
    at_fault("the head of a record", head + one[:15], "Cut 24")
    at_fault("a frame", head + one[:-1], "Cut 24")
    at_fault("a second record", head + one + one[:1], f"Cut {24 + len(one)}", 1)
    at_fault("no frame", head + captures.record(b"", size=1), "Cut 24")
    at_fault("a record", head + captures.record(b"", size=262145), "TooLong 24")
    at_fault("a long record", head + one + captures.record(bytes(262145)), f"TooLong {24 + len(one)}", 1)
    check("the longest record", head + captures.record(to_group(ONE) + bytes(262144 - len(to_group(ONE)))) +
          captures.record(to_group(END)), WHOLE, 0)


def add_faults_of_blocks():
    start = captures.section() + captures.interface()
    one = captures.enhanced(to_group(ONE))
    at = len(start)
    at_fault("a magic of a section", captures.section(magic=0x1A2B3C4E), "BadBlock 0")
    at_fault("a section header", captures.section()[:11], "Cut 0")
    at_fault("a short section header", captures.block(captures.SECTION, b"\x4d\x3c\x2b\x1a" + bytes(8)), "BadBlock 0")
    at_fault("the start of a block", start + one + bytes(7), f"Cut {at + len(one)}", 1)
    at_fault("a block", start + one[:-1], f"Cut {at}")
    at_fault("a block of another kind", start + captures.block(5, bytes(8))[:-1], f"Cut {at}")
    for kind in (1, 3, 5, 6):
        at_fault(f"the length 8 of kind {kind}", start + captures.block(kind, bytes(20), total=8), f"BadBlock {at}")
        # Both lengths of the block are 34.
        odd = captures.block(kind, bytes(20), total=34)[:-4] + bytes(2) + (34).to_bytes(4, "little")
        at_fault(f"a length of kind {kind} that 4 does not divide", start + odd, f"BadBlock {at}")
        at_fault(f"two lengths of kind {kind}", start + captures.block(kind, bytes(40), last=56), f"BadBlock {at}")
    for kind, size in ((1, 4), (3, 0), (6, 16)):
        at_fault(f"a short block of kind {kind}", start + captures.block(kind, bytes(size)), f"BadBlock {at}")
        at_fault(f"a long block of kind {kind}", start + captures.block(kind, bytes(327684 - 12)), f"TooLong {at}")
    at_fault("a packet longer than its block", start + captures.enhanced(bytes(8), size=9), f"BadBlock {at}")
    at_fault("a simple packet longer than its block", start + captures.simple(bytes(8), original=9), f"BadBlock {at}")
    at_fault("a magic of a second section", start + one + captures.section(magic=1), f"BadBlock {at + len(one)}", 1)
    check("the longest block", start + captures.enhanced(to_group(ONE) + bytes(327680 - 32 - len(to_group(ONE)))) +
          captures.enhanced(to_group(END)), WHOLE, 0)


def add_faults_of_interfaces():
    start = captures.section() + captures.interface()
    one = captures.enhanced(to_group(ONE))
    at_fault("an interface", start + captures.enhanced(to_group(ONE), number=1), f"NoInterface {len(start)}")
    at_fault("a simple packet", captures.section() + captures.simple(to_group(ONE)), "NoInterface 28")
    at_fault("an interface of another section", start + one + captures.section() + one,
             f"NoInterface {len(start) + len(one) + 28}", 1)
    many = captures.section() + 1024 * captures.interface()
    last = captures.enhanced(to_group(ONE), number=1023)
    check("1,024 interfaces", many + last + captures.enhanced(to_group(END), number=0), WHOLE, 0)
    more = captures.enhanced(to_group(END), number=1024)
    at_fault("an interface after 1,024 others", many + captures.interface() + last + more,
             f"NoInterface {len(many) + 20 + len(last)}", 1)


# Several files, and filters.


def add_files():
    one, end, cut = of_payloads(ONE), of_payloads(END), of_payloads(END)[:-1]
    add("two files", "check --capture b --capture a", {"b": one, "a": end}, WHOLE)
    add("a file and pcapng", "check --capture b --capture=a", {"b": one, "a": captures.pcapng([to_group(END)])}, WHOLE)
    add("standard input", "check --capture -", {"-": of_payloads(ONE, END)}, WHOLE)
    add("standard input and a file", "check --capture a --capture - --capture b", {"-": end, "a": one, "b": end},
        counts(3) + "whole 1\n")
    add("a file named -", "check --capture ./-", {"./-": of_payloads(ONE, END)}, WHOLE)
    add("the same file twice", "check --capture f --capture f", {"f": of_payloads(ONE, END)}, counts(4) + "whole 1\n")
    add("files at fault", "check --capture a --capture b --capture c --capture d --capture e",
        {"a": cut, "b": one, "c": b"", "d": b"text", "e": end},
        counts(2) + "capture a Cut 24\ncapture c Cut 0\ncapture d NoCapture\nwhole 1\n", 2)
    add("standard input at fault", "check --capture - --capture b", {"-": one[:30], "b": one},
        counts(1) + "capture - Cut 24\nincomplete end none\n", 2)
    add("forty files", "check" + 40 * " --capture f", {"f": of_payloads(ONE, END)}, counts(80) + "whole 1\n")
    add("a refused datagram of the second file", "check --capture a --capture b",
        {"a": of_payloads(ONE, BEAT), "b": of_payloads(ONE, b"x", TWO)},
        counts(5) + "refused datagram 4 Malformed Short 1\n", 2, place(4, 2, "b"))
    add("a refused datagram before a fault", "check --capture a --capture b", {"a": of_payloads(b""), "b": cut},
        counts(1) + "capture b Cut 24\nrefused datagram 1 Malformed Short 0\n", 2, place(1, 1, "a"))


def add_unread():
    unread = "capture none Unread 0\n"
    for command, text in (("check", counts(0) + unread + NOTHING), ("show", unread), ("sessions", others() + unread)):
        add(f"{command}: no file", f"{command} --capture none", {}, text, 2)
    files = {"a": of_payloads(ONE), "b": of_payloads(END), "DIR": None, "cut": of_payloads(ONE)[:-1]}
    add("check: no second file", "check --capture a --capture none --capture b", files,
        counts(2) + unread + "whole 1\n", 2)
    add("check --each: no second file", "check --each --capture a --capture none --capture b", files,
        counts(2) + unread + f"session {HEX}\nwhole 1\n", 2)
    add("check --digest: no second file", "check --digest --capture a --capture none --capture b", files,
        counts(2) + unread + "whole 1 by digest\n", 2)
    add("check --journal: no second file", "check --journal J --capture a --capture none --capture b", files,
        counts(2) + unread + "whole 1\n", 2)
    add("extract: no second file", "extract --lines --to M --capture a --capture none --capture b", files,
        counts(2) + unread + "extracted 1\n", 2)
    add("show: no second file", "show --capture a --capture none --capture b", files,
        shown("1.000000000", ONE_TEXT) + shown("1.000000000", END_TEXT) + unread, 2)
    add("sessions: no second file", "sessions --capture a --capture none --capture cut", files,
        line(numbers="1 1") + others() + unread + "capture cut Cut 24\n", 2)
    add("a folder as a capture", "check --capture DIR --capture a", files,
        counts(1) + "capture DIR Unread 0\n" + NOTHING, 2)
    add("no file, and a refused datagram", "check --capture none --capture f", {"f": of_payloads(b"")},
        counts(1) + unread + "refused datagram 1 Malformed Short 0\n", 2, place(1, 1))


def add_filters():
    frames = [to_group(ONE), to_group(END), to_group(OTHER_END, "239.1.1.2"), to_group(OTHER_END, port=26401)]
    frames += [ethernet(ipv6(udp(OTHER_END), target="ff02::1"))]
    file = captures.classic(frames)
    whole, all_others = counts(2, 3) + "whole 1\n", counts(0, 5) + NOTHING
    refused = place(3, 3, target="239.1.1.2:26400") + SEE + SEVERAL
    check("no filter", file, counts(5) + "refused datagram 3 WrongSession\n", 2, "", refused)
    check("a port and a group", file, whole, 0, " --port 26400 --group 239.1.1.1")
    check("two ports and two groups", file, counts(3, 2) + "refused datagram 3 WrongSession\n", 2,
          " --port 26400 --group 239.1.1.1 --port 1 --group 239.1.1.2", refused)
    for group in ("ff02::1", "FF02:0:0:0:0:0:0:1", "ff02:0000:0000:0000:0000:0000:0000:0001", "ff02::0.0.0.1"):
        check(f"the group {group}", captures.classic([frames[4], to_group(END)]),
              counts(1, 1) + "incomplete end 9\nmissing 1 8\n", 1, f" --group {group}")
    check("two ports", captures.classic([to_group(ONE, port=1), to_group(END, port=65535), to_group(OTHER_END)]),
          counts(2, 1) + "whole 1\n", 0, " --port 65535 --port 1")
    check("a port of 20 digits", file, whole, 0, f" --port {PORT:020} --group 239.1.1.1")
    check("another port", file, all_others, 1, " --port 5000")
    check("another group", file, all_others, 1, " --group 10.0.0.1")
    check("a session", file, whole, 0, " --session SESSION001")
    check("a session that is padded", file, counts(3, 2) + "incomplete end 9\nmissing 1 8\n", 1, " --session OTHER")
    check("the start of a session", file, all_others, 1, " --session SESSION00")
    check("a group of IPv6", file, counts(1, 4) + "incomplete end 9\nmissing 1 8\n", 1, f" --group {address(1)}")
    check("another group of IPv6", file, all_others, 1, f" --group {address(2)}")
    check("filters before the file", file, whole, 0)
    CASES[-1].call = "check --session=SESSION001 --group=239.1.1.1 --port=26400 --capture=f"
    short = of_payloads(S[:9], S, b"")
    check("payloads that are shorter than a name", short, counts(1, 2) + "refused datagram 1 Malformed Short 10\n", 2,
          " --session SESSION001", place(1, 2))
    parts = captures.classic([to_group(OTHER_END)[:-1], ethernet(ipv4(udp(ONE)[:16], fragment=0x2000))])
    check("parts are not judged by their session", parts, counts(0, 0, 2) + NOTHING, 1, " --session SESSION001")
    check("ports of the sender", captures.classic([ethernet(ipv4(udp(ONE, (26400, 1))))]), counts(0, 1) + NOTHING, 1,
          " --port 26400")


def add_hints():
    def hint(name, frames, text, errors, options=""):
        check(f"hint: {name}", captures.classic(frames), text, 2, options, errors)

    first, refused = to_group(ONE), counts(2) + "refused datagram 2 WrongSession\n"
    hint("another port", [first, to_group(OTHER_END, port=1)], refused,
         place(2, 2, target="239.1.1.1:1") + SEE + SEVERAL)
    hint("another group", [first, to_group(OTHER_END, "239.1.1.2")], refused,
         place(2, 2, target="239.1.1.2:26400") + SEE + SEVERAL)
    hint("another version of IP", [first, ethernet(ipv6(udp(OTHER_END), target="ff02::1"))], refused,
         place(2, 2, target=f"[{address(1)}]:26400") + SEE + SEVERAL)
    hint("the same destination", [first, to_group(OTHER_END)], refused, place(2, 2) + SEVERAL)
    hint("another sender", [first, ethernet(ipv4(udp(OTHER_END, (1, PORT)), "10.9.9.9"))], refused,
         place(2, 2) + SEVERAL)
    hint("the first datagram", [to_group(b"x"), to_group(ONE, port=1)],
         counts(2) + "refused datagram 1 Malformed Short 1\n", place(1, 1))
    # The datagram before the refused one is at its destination, and the first one is not.
    hint("the destination of the first datagram", [to_group(BEAT, port=1), first, to_group(b"x")],
         counts(3) + "refused datagram 3 Malformed Short 1\n", place(3, 3) + SEE)
    hint("among those that pass", [to_group(OTHER_END, port=1), first, to_group(b"x")],
         counts(2, 1) + "refused datagram 2 Malformed Short 1\n", place(2, 3), " --port 26400")
    hint("several sessions after the refusal", [first, to_group(b"x"), to_group(OTHER_END)],
         counts(3) + "refused datagram 2 Malformed Short 1\n", place(2, 2) + SEVERAL)
    hint("several sessions after a first refusal", [to_group(b"x"), first, to_group(OTHER_END)],
         counts(3) + "refused datagram 1 Malformed Short 1\n", place(1, 1) + SEVERAL)
    hint("the frames of other datagrams count", [b"", to_group(ONE)[:60], first, b"", to_group(b"x")],
         counts(2, 2, 1) + "refused datagram 2 Malformed Short 1\n", place(2, 5))


def add_partial():
    """What a verdict `whole` leaves out is stated on standard error, and only there."""
    part, other_end = to_group(ONE)[:-1], model.encoding(model.Packet("end", OTHER, 1))
    parts = captures.classic([to_group(ONE), part, to_group(END)])
    end = captures.classic([to_group(END), part])
    for option, text in (("", "whole 1\n"), (" --digest", "whole 1 by digest\n"), (" --journal J", "whole 1\nsaved 1\n"),
                         (" --each", f"session {HEX}\nwhole 1\n")):
        add(f"partial beside whole:{option}", f"check --capture f{option}", parts, counts(2, 0, 1) + text, 0, PARTIAL)
    add("partial beside whole, and a file at fault", "check --capture f --capture g", {"f": parts}, counts(2, 0, 1)
        + "capture g Unread 0\nwhole 1\n", 2, PARTIAL)
    add("partial beside incomplete", "check --capture f", end, counts(1, 0, 1) + "incomplete end 2\nmissing 1 1\n", 1)
    add("skipped beside whole", "check --capture f", captures.classic([to_group(ONE), b"", to_group(END)]),
        counts(2, 1) + "whole 1\n")
    add("partial beside one whole session", "check --capture f --each", captures.classic([to_group(BEAT), part,
        to_group(other_end)]), counts(2, 0, 1) + f"session {HEX}\nincomplete end none\nsession {HEX_OTHER}\nwhole 0\n", 1,
        PARTIAL)
    add("partial beside a refusal", "check --capture f", captures.classic([to_group(ONE), part, to_group(b"x")]),
        counts(2, 0, 1) + "refused datagram 2 Malformed Short 1\n", 2, place(2, 3))


def add_places():
    """Where the refused datagram is, in several files and without a time, and for commands other than `check`."""
    files = {"a": captures.classic([b"", to_group(ONE)]), "b": captures.classic([to_group(BEAT), to_group(OTHER_END)])}
    text, refused = counts(3, 1) + "refused datagram 3 WrongSession\n", place(3, 2, "b")
    both = "--capture a --capture b"
    for option in ("", " --digest", " --journal J"):
        add(f"place: check{option}", f"check {both}{option}", files, text, 2, refused + SEVERAL)
    add("place: check --each", f"check {both} --each", files, counts(3, 1) + f"session {HEX}\nincomplete end none\n"
        f"session {HEX_OTHER}\nincomplete end 9\nmissing 1 8\n", 1)
    for form in ("--lines", "--blocks"):
        add(f"place: extract {form}", f"extract {both} {form} --to M", files, text, 2, refused)
    blocks = captures.section() + captures.interface() + captures.simple(to_group(b""))
    add("place: no time", "check --capture -", {"-": blocks}, counts(1) + "refused datagram 1 Malformed Short 0\n", 2,
        "datagram 1 is frame 1 at none to 239.1.1.1:26400 of -\n")
    ask = "is it a capture? mold check --capture f\nfault Read\n"
    for option in ("", " --each", " --digest", " --journal J"):
        for order in ("big", "little"):
            for name, file in (("classic", captures.classic_head(order)), ("pcapng", captures.section(order)),
                               ("nanoseconds", captures.classic_head(order, "nanoseconds")[:4])):
                add(f"{name}, {order}, as a folder{option}", f"check f{option}", file, "", 3, ask)
    for name, file in (("text", b"# no capture\n"), ("three bytes", captures.classic_head()[:3]), ("nothing", b"")):
        add(f"{name} as a folder", "check f", file, "", 3, "fault Read\n")
    add("a capture as a folder of extract", "extract f --lines --to M", captures.classic_head(), "", 3, "fault Read\n")


# The texts of the commands.


def add_reasons():
    beat2, end3 = (model.encoding(model.Packet(kind, S, 3)) for kind in ("heartbeat", "end"))
    rows = [("Malformed BlockCut 0", [ONE[:-1]], 1), ("Malformed Trailing 23", [ONE + b"\0"], 1),
            ("WrongSession", [ONE, OTHER_END], 2), ("EndConflict 2", [END, end3], 2),
            ("EndBelow 3", [beat2, END], 2), ("PastEnd 2", [END, beat2], 2),
            ("SequenceZero", [S + bytes(10)], 1), ("PastLast", [S + b"\xff" * 8 + b"\0\1\0\1A"], 1),
            ("Conflict 1", [ONE, ONE[:-1] + b"B"], 2)]
    for reason, payloads, number in rows:
        errors = place(number, number) + (SEVERAL if reason == "WrongSession" else "")
        check(reason, of_payloads(*payloads), counts(len(payloads)) + f"refused datagram {number} {reason}\n", 2, "",
              errors)
    check("missing messages", of_payloads(ONE, model.encoding(model.Packet("heartbeat", S, 9))),
          counts(2) + "incomplete end none\nmissing 2 8\n")


def shown(time, text, source="10.0.0.1:5000", target="239.1.1.1:26400"):
    return f"at {time} from {source} to {target}\n{text}"


ONE_TEXT = f"data {HEX} 1 1\n  1 1 41\n"
TWO_TEXT = f"data {HEX} 2 2\n  2 1 42\n  3 0 -\n"
BEAT_TEXT = f"heartbeat {HEX} 1\n"
END_TEXT = f"end {HEX} 2\n"


def show(name, file, text, status=0, options=""):
    add(f"show: {name}", f"show --capture f{options}", file, text, status)


def add_shown():
    head, frame = captures.classic_head(), to_group(BEAT)
    show("packets", of_payloads(ONE, TWO, BEAT, END), shown("1.000000000", ONE_TEXT) + shown("2.000000000", TWO_TEXT) +
         shown("3.000000000", BEAT_TEXT) + shown("4.000000000", END_TEXT))
    show("microseconds", head + captures.record(frame, seconds=4294967295, fraction=999999),
         shown("4294967295.999999000", BEAT_TEXT))
    show("more than a second of microseconds", head + captures.record(frame, seconds=1, fraction=4294967295),
         shown("4295.967295000", BEAT_TEXT))
    show("nanoseconds", captures.classic_head(unit="nanoseconds") + captures.record(frame, seconds=7, fraction=1),
         shown("7.000000001", BEAT_TEXT))
    show("refused datagrams", of_payloads(b"x", BEAT, ONE + b"\0", b""), shown("1.000000000", "refused Short 1\n") +
         shown("2.000000000", BEAT_TEXT) + shown("3.000000000", "refused Trailing 23\n") +
         shown("4.000000000", "refused Short 0\n"), 2)
    show("a packet that check refuses", of_payloads(ONE, OTHER_END), shown("1.000000000", ONE_TEXT) +
         shown("2.000000000", "end 4f544845522020202020 9\n"))
    packet = ipv6(udp(BEAT, (1, 65535)), "2001:db8::ff00:42:8329", "ff02::1")
    show("IPv6", of_packets(packet), shown("1.000000000", BEAT_TEXT,
         "[2001:0db8:0000:0000:0000:ff00:0042:8329]:1", "[ff02:0000:0000:0000:0000:0000:0000:0001]:65535"))
    mapped = of_packets(ipv6(udp(BEAT), "::ffff:1.2.3.4", "::"), ipv4(udp(BEAT, (0, 0)), "0.0.0.0", "255.255.255.255"))
    show("addresses", mapped, shown("1.000000000", BEAT_TEXT, "[0000:0000:0000:0000:0000:ffff:0102:0304]:5000",
         "[0000:0000:0000:0000:0000:0000:0000:0000]:26400") +
         shown("2.000000000", BEAT_TEXT, "0.0.0.0:0", "255.255.255.255:0"))
    show("a file without datagrams", captures.classic([b""]), "")
    others = to_group(END, port=1), to_group(OTHER_END), ethernet(ipv4(udp(END), target="239.1.1.2"))
    show("filters", captures.classic([to_group(ONE), *others]),
         shown("1.000000000", ONE_TEXT), 0, " --port 26400 --session SESSION001 --group 239.1.1.1")
    add("show: files at fault", "show --capture a --capture - --capture b", {
        "a": of_payloads(ONE) + b"x", "-": of_payloads(END), "b": b""},
        shown("1.000000000", ONE_TEXT) + shown("1.000000000", END_TEXT) + "capture a Cut 105\ncapture b Cut 0\n", 2)


def timed(name, units, time, resolution=None, offset=None, options=None, order="little"):
    options = captures.clock(order, resolution, offset) if options is None else options
    file = captures.section(order) + captures.interface(1, order, 0, options)
    show(f"time of pcapng, {name}", file + captures.enhanced(to_group(BEAT), order, 0, units), shown(time, BEAT_TEXT))


def add_times():
    timed("microseconds", 1700000000123456, "1700000000.123456000")
    timed("milliseconds", 1700000000123, "1700000000.123000000", 3)
    timed("nanoseconds", 1700000000123456789, "1700000000.123456789", 9, order="big")
    timed("picoseconds are cut", 1999999999999, "1.999999999", 12)
    timed("seconds", 1700000000, "1700000000.000000000", 0)
    timed("2^0", 5, "5.000000000", 0x80)
    timed("2^10", 1025, "1.000976562", 0x8A)
    timed("2^63", 1 << 62, "0.500000000", 0x80 + 63)
    timed("10^19", 5 * 10**18, "0.500000000", 19)
    timed("an offset", 1500000, "1700000001.500000000", None, 1700000000, order="big")
    timed("a negative offset", 5500000, "0.500000000", None, -5)
    timed("the greatest units", (1 << 64) - 1, "18446744073709.551615000")
    timed("before 1970", 4999999, "none", None, -5)
    timed("past 64 bits", (1 << 64) - 1, "none", 0, 1)
    timed("10^20", 1, "none", 20)
    timed("2^64", 1, "none", 0x80 + 64)
    name, end = captures.option(2, b"eth0!"), captures.option(0, b"")
    milli = captures.option(9, b"\3")
    timed("after other options", 1500, "1.500000000", options=name + milli + end)
    timed("without the end of options", 1500, "1.500000000", options=name + milli)
    timed("after the end of options", 1500000, "1.500000000", options=end + milli)
    timed("an option of another length", 1500000, "1.500000000", options=captures.option(9, b"\3\3") + end)
    timed("an option that is cut", 1500000, "1.500000000", options=b"\x0e\0\x08\0\1\0\0\0")
    file = captures.section() + captures.interface() + captures.simple(to_group(BEAT))
    show("a simple packet has no time", file, shown("none", BEAT_TEXT))
    file = captures.section() + captures.interface(options=captures.clock(resolution=3)) + captures.interface()
    file += captures.enhanced(to_group(BEAT), number=1, units=1500) + captures.enhanced(to_group(END), units=1500)
    show("times by the interface", file, shown("0.001500000", BEAT_TEXT) + shown("1.500000000", END_TEXT))


def others(skipped=0, partial=0, unread=0):
    """The line of `sessions` for the frames that are not datagrams that pass."""
    return f"skipped {skipped} partial {partial} unread {unread}\n"


def sessions(name, file, text, counted=(), options=""):
    add(f"sessions: {name}", f"sessions --capture f{options}", file, text + others(*counted))


def line(target="239.1.1.1:26400", session=HEX, datagrams=1, numbers="none none", beats=0, end="none"):
    return f"to {target} session {session} datagrams {datagrams} messages {numbers} heartbeats {beats} end {end}\n"


def add_sessions():
    sessions("one", of_payloads(BEAT, TWO, ONE, BEAT, END), line(datagrams=5, numbers="1 3", beats=2, end="2"))
    sessions("no data", of_payloads(BEAT), line(beats=1))
    sessions("several ends", of_payloads(model.encoding(model.Packet("end", S, 9)), END), line(datagrams=2, end="2"))
    frames = [to_group(END, port=1), to_group(OTHER_END), to_group(b"x"), to_group(ONE, port=1), to_group(END)]
    frames += [ethernet(ipv6(udp(b""), target="ff02::1")), to_group(b"")]
    text = line("239.1.1.1:1", datagrams=2, numbers="1 1", end="2") + line(session=HEX_OTHER, end="9")
    text += "to 239.1.1.1:26400 session none refused 2\n" + line(end="2")
    text += f"to [{address(1)}]:26400 session none refused 1\n"
    sessions("in the order of their appearance", captures.classic(frames), text)
    sessions("filters", captures.classic(frames), line(session=HEX_OTHER, end="9") +
             "to 239.1.1.1:26400 session none refused 2\n" + line(end="2"), [3], " --port 26400 --group 239.1.1.1")
    sessions("no datagrams", captures.classic([b""]), "", [1])
    cut = [to_group(ONE)[:60], to_group(BEAT), to_group(OTHER_END, port=1)[:60]]
    sessions("datagrams of which the capture has 60 bytes", captures.classic(cut), line(beats=1), [0, 2])
    sessions("the same of one port", captures.classic(cut), line(beats=1), [1, 1], " --port 26400")
    sessions("MPLS alone", captures.classic(3 * [ethernet(bytes(4) + ipv4(udp(ONE)), (), 0x8847)]), "", [3])
    file = captures.section() + captures.interface(6) + captures.interface()
    file += captures.enhanced(b"token ring") + captures.enhanced(to_group(END), number=1) + captures.enhanced(b"")
    sessions("a link type that is not read", file, line(end="2"), [0, 0, 2])
    greatest = S + b"\xff" * 8 + b"\0\2\0\1A\0\0"
    sessions("numbers past 64 bits", of_payloads(greatest), line(numbers="18446744073709551615 18446744073709551616"))
    sessions("number 0", of_payloads(S + bytes(8) + b"\0\1\0\1A"), line(numbers="0 0"))
    sessions("contradicting datagrams", of_payloads(ONE, ONE[:-1] + b"B"), line(datagrams=2, numbers="1 1"))
    add("sessions: several files", "sessions --capture a --capture b --capture c",
        {"a": of_payloads(ONE)[:-1], "b": of_payloads(BEAT, ONE), "c": of_payloads(END) + b"x"},
        line(datagrams=3, numbers="1 1", beats=1, end="2") + others() + "capture a Cut 24\ncapture c Cut 102\n", 2)
    add("sessions: standard input", "sessions --capture -", {"-": of_payloads(END)}, line(end="2") + others())


# Arguments that are refused. The program's library words the texts that begin with `error: `.
USAGE = """check DIR --capture f
check - --capture f
check --capture f DIR
check --capture
check DIR --port 1
check - --group 10.0.0.1
check - --session A
check --port 1
check
check --capture - --capture -
check --capture - --capture f --capture=-
check --capture f --session A --session B
check --capture f --port 0
check --capture f --port 65536
check --capture f --port -1
check --capture f --port=
check --capture f --port +1
check --capture f --port 26400/udp
check --capture f --port 000000000000000000001
check --capture f --session ''
check --capture f --session SESSION0012
check --capture f --source-port 1
show --capture - --capture -
show --port 1
show --session A
show --group 10.0.0.1
show f --capture f
show --request --capture f
sessions
sessions f
sessions --port 1
sessions --capture f --session A
sessions --capture - --capture -
sessions --capture f --port 0""".splitlines()
# Values of --group that are not addresses.
NO_ADDRESSES = """10.0.0 10.0.0.256 10.0.0.01 10.0.0.1:26400 group ff02::1::2 ff02::00001 :::
ff02:0000:0000:0000:0000:0000:0000:000g ff02:0000:0000:0000:0000:0000:0000
[ff02:0000:0000:0000:0000:0000:0000:0001] ff02:0000:0000:0000:0000:0000:0000:0001:0001 ''""".split()


def add_usage():
    files = {"f": of_payloads(ONE, END), "DIR": None}
    pattern = re.compile(r"error: .*\nfault Usage\n", re.S)
    for arguments in USAGE:
        add(f"usage: {arguments}", arguments, files, "", 3, pattern)
    for option, value in (("--port", "0"), ("--session", "SESSION0012")):
        text = re.escape(f"error: invalid value for '{option} <")
        add(f"usage: the text of {option}", f"check --capture f {option} {value}", files, "", 3,
            re.compile(rf"{text}.*\nfault Usage\n"))
    for command in captures.COMMANDS:
        for group in NO_ADDRESSES:
            add(f"usage: {command} --group {group}", f"{command} --capture f --group {group}", files, "", 3,
                re.compile(r"error: invalid value for '--group <.*\nfault Address\n"))


def small(make):
    """Two heartbeats, over the smallest frames."""
    return make([ipv4(udp(BEAT)), ipv4(udp(END))])


def small_blocks(order):
    frame = ipv4(udp(BEAT))
    return captures.section(order) + captures.interface(captures.RAW, order) + \
        captures.enhanced(frame, order, units=1700000000123456) + captures.simple(frame, order)


SMALL = {
    "classic, big": small(lambda it: captures.classic(it, "big", "microseconds", captures.RAW)),
    "classic, little": small(lambda it: captures.classic(it, "little", "nanoseconds", captures.RAW)),
    "pcapng, big": small_blocks("big"),
    "pcapng, little": small_blocks("little"),
}
LAST_HEADERS = [captures.extension(0), captures.extension(captures.AUTHENTICATION, 1), captures.fragment_header(0)]
FRAMES = {
    "Ethernet with tags": (captures.ETHERNET, ethernet(ipv4(udp(ONE), options=bytes(4)), [0x88A8, 0x8100])),
    "IPv4": (captures.IPV4_LINK, ipv4(udp(ONE))),
    "IPv6 with extension headers": (captures.RAW, ipv6(udp(ONE), extensions=LAST_HEADERS)),
    "a fragment of IPv4": (captures.RAW, ipv4(udp(ONE), fragment=0x2000)),
    "a fragment of IPv6": (captures.RAW, ipv6(udp(ONE), extensions=[captures.fragment_header(1)])),
    "a later fragment of IPv6": (captures.RAW, ipv6(udp(ONE), extensions=[captures.fragment_header(9)])),
    "Linux cooked": (captures.COOKED, linked(captures.COOKED, ipv6(udp(ONE)))),
    "Linux cooked 2": (captures.COOKED_2, linked(captures.COOKED_2, ipv4(udp(ONE)), [0x8100])),
    "BSD loopback": (captures.LOOP, linked(captures.LOOP, ipv4(udp(ONE)))),
}
for add_cases in (add_links, add_tags, add_ipv4, add_fragments, add_cut, add_udp, add_ipv6, add_formats, add_blocks,
                  add_faults_of_records, add_faults_of_blocks, add_faults_of_interfaces, add_files, add_unread,
                  add_filters, add_hints, add_partial, add_places, add_reasons, add_shown, add_times, add_sessions,
                  add_usage):
    add_cases()
