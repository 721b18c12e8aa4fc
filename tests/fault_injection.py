"""Small calls of the program, and the library that makes their system calls fail, for tests/out-of-memory and
tests/io-errors."""
import os
import shutil
import struct
import subprocess
import threading
from dataclasses import dataclass, field

import captures_model as captures
import model
import processes
import udp_peers

S = b"SESSION001"
HEX = S.hex().encode()
OLD = model.old_journal_file(S, [b"AB", b""])
RECORDS = model.record_file(S, [b"AB", b""], True)
OPEN = model.record_file(S, [b"AB"], False)
MESSAGES = b"4142\n\n43\n"
LINES = b"".join(b"%02d" % it * 20 + b"\n" for it in range(1, 6))
# The exit status of a program that reports a fault.
FAULT = 3
# The options of commands over captures that change what they print or write.
CAPTURE_OPTIONS = ("--each", "--digest", "--journal", "--lines", "--blocks")
# How often a call over sockets is tried before it counts as failed, because a busy system may delay datagrams.
TRIES = 3
# A lock for each set of ports, because calls with the same ports run one after the other, and the sockets of those
# ports. The sockets stay open; otherwise a program that has just started could bind one of the ports.
LOCKS, BOUND = {}, {}


@dataclass
class Call:
    """A call of the program. An argument @NAME is a file in the folder of the call."""

    name: str
    arguments: list
    given: bytes = b""
    # The files that exist before the call, and the names of those that the call makes.
    files: dict = field(default_factory=dict)
    made: tuple = ()
    # A function that runs in parallel with the call, and its ports. It returns the datagrams that arrive there.
    peer: object = None
    ports: tuple = ()
    # The exit status if no system call fails.
    status: int = 0
    # The kinds of system calls that the call makes in any case.
    devices: tuple = ("read", "write")
    # The kinds of system calls that the call does not always count if they fail.
    uncounted: tuple = ()


    def captured(self, folder, unread):
        """The outcome of a call that reads captures in this folder, by their model: the text, the status, the file that
        it writes, and the text on standard error. Of each file in `unread`, only this many bytes can be read."""
        options, files, chosen = list(zip(self.arguments, self.arguments[1:])), [], captures.Filter()
        for option, value in options:
            if option == "--capture":
                name = os.path.join(folder, value[1:]) if value.startswith("@") else value
                content = self.given if value == "-" else self.files[value[1:]]
                files.append((name, captures.Unread(content[: unread[name]]) if name in unread else content))
            elif option == "--port":
                chosen.ports.append(int(value))
            elif option == "--group":
                chosen.groups.append(captures.address(value))
            elif option == "--session":
                chosen.session = model.padded(value)
        own = [it for it in CAPTURE_OPTIONS if it in self.arguments]
        numbers = (model.DEFAULTS["from"], model.DEFAULTS["count"]) if self.arguments[0] == "extract" else ()
        text, *others = captures.run(self.arguments[0], chosen, files, own[0] if own else "", numbers)
        return captures.by_digest(text) if "--digest" in own[1:] else text, *others


@dataclass
class Room:
    """What a run with faults needs: the library, the kind of call that fails, a folder and a file for counts."""

    library: str
    kind: str
    folder: str

    def counts_file(self):
        return f"{self.folder}.counts"

    def environment(self, number, is_all=False, is_single=False):
        added = {"LD_PRELOAD": self.library, "FAULT": self.kind, "FAULT_AT": str(number)}
        added |= {"FAULT_COUNTS": self.counts_file()} | ({"FAULT_ALL": "1"} if is_all else {})
        return os.environ | added | ({"FAULT_SINGLE_BYTES": "1"} if is_single else {})

    def counts(self):
        """The counts of the last run: calls of the kind, failed calls, and failed calls made by the program itself."""
        return struct.unpack("QQQ", processes.content_of(self.counts_file()))

    def clear(self):
        processes.put(self.counts_file(), bytes(24))


def data(first, *messages):
    return model.encoding(model.Packet("data", S, first, messages))


def has_ended(process):
    """Waits for at most a millisecond, and returns whether the program has ended."""
    try:
        return process.wait(0.001) is not None
    except subprocess.TimeoutExpired:
        return False


def receive_lines(process, own):
    """The datagrams that a publisher sends on its lines."""
    received = [[] for _ in own]
    is_over = False
    while not is_over:
        is_over = has_ended(process)
        for socket, datagrams in zip(own, received):
            datagrams += [it for it, _ in udp_peers.arrived(socket)]
    return received


def request_messages(process, own):
    """Requests two messages from a server repeatedly, and returns the responses."""
    request = model.Request(S, 1, 2).encoding()
    while not has_ended(process):
        own[0].sendto(request, (udp_peers.own_host(), udp_peers.SERVER))
    return [[it for it, _ in udp_peers.arrived(own[0])]]


def send_messages(process, own):
    """Sends message 3 on line A, the end of session on line B, and messages 1 and 2 in response to each request."""
    host = udp_peers.own_host()
    while not has_ended(process):
        own[0].sendto(data(3, b"C"), (host, udp_peers.LINE_A))
        own[0].sendto(model.encoding(model.Packet("end", S, 4)), (host, udp_peers.LINE_B))
        for _, sender in udp_peers.arrived(own[1]):
            own[1].sendto(data(1, b"AB", b""), sender)
    return []


def address(port):
    return f"{udp_peers.own_host()}:{port}"


def calls_of_files():
    pack = ["pack", "--session", "SESSION001", "--limit", "64", "--journal", "@new"]
    upgrade = ["upgrade", "--journal", "@old", "--to", "@new", "--close"]
    folder = {"b.pkt": data(1, b"AB", b""), "a.pkt": model.encoding(model.Packet("end", S, 5)), "c.txt": b""}
    conflict = {"b.pkt": data(2, b"X"), "a.pkt": data(2, b"Y")}
    end, heartbeat = (model.encoding(model.Packet(kind, S, 1)) for kind in ("end", "heartbeat"))
    return [
        Call("check", ["check", "@"], files=folder, status=1),
        Call("check, whole", ["check", "@"], files={"b.pkt": end, "a.pkt": heartbeat}),
        Call("check, refused", ["check", "@"], files=conflict, status=2),
        Call("check --each of a folder", ["check", "@", "--each"], files=folder, status=1),
        Call("pack --journal", pack, LINES, made=("new",)),
        Call("pack --journal over a file", pack, LINES, files={"new": b"old content"}, made=("new",)),
        Call("pack --journal, refused", pack, MESSAGES + b"4\n", made=("new",), status=2),
        Call("upgrade", upgrade, files={"old": OLD}, made=("new",)),
        Call("upgrade, a file with records", upgrade, files={"old": RECORDS}, made=("new",)),
        Call("upgrade over a file", upgrade, files={"old": OLD, "new": b"old content"}, made=("new",)),
        Call("upgrade, refused", upgrade, files={"old": OLD[:-1]}, made=("new",), status=2),
        Call("close", ["close", "--journal", "@new"], files={"new": OPEN}, made=("new",)),
        Call("close, refused", ["close", "--journal", "@new"], files={"new": RECORDS}, made=("new",), status=2),
        Call("dump", ["dump", "--journal", "@old"], files={"old": OLD}),
        Call("dump, a file with records", ["dump", "--journal", "@old"], files={"old": RECORDS}),
        Call("dump, refused", ["dump", "--journal", "@old"], files={"old": OLD[:-1]}, status=2),
        Call("dump, blocks", ["dump", "--journal", "@old", "--blocks"], files={"old": OLD}),
    ]


def calls_of_captures():
    """Calls of the commands that read captures: of each format, of all formats of addresses, and at fault."""
    end, other = model.encoding(model.Packet("end", S, 3)), model.encoding(model.Packet("end", b"OTHER     ", 3))
    frames = [captures.ethernet(captures.ipv4(captures.udp(it))) for it in (data(1, b"AB", b""), end)]
    wrong = captures.ethernet(captures.ipv6(captures.udp(other), extensions=[captures.extension(60)]))
    file, records = captures.pcapng(frames, "big"), captures.classic([*frames, wrong, frames[0][:40]])
    files, filters = {"a": file, "b": records}, ["--port", "26400", "--group", "239.1.1.1", "--session", "SESSION001"]
    both, cut = ["--capture", "@a", "--capture", "@b"], records[:-1]
    return [
        Call("check of captures", ["check", *both, *filters], files=files),
        # The datagram that is refused has another destination, so there is a line on standard error.
        Call("check of captures, refused", ["check", *both], files=files, status=2),
        Call("check of captures, at fault", ["check", "--capture", "-", *filters], cut, status=2),
        Call("check --each of captures", ["check", *both, "--each"], files=files, status=1),
        Call("check --each --digest of captures", ["check", *both, "--each", "--digest"], files=files, status=1),
        Call("check --journal of captures", ["check", *both, *filters, "--journal", "@new"], files=files,
             made=("new",)),
        Call("extract of captures", ["extract", *both, *filters, "--blocks", "--to", "@new"], files=files,
             made=("new",)),
        Call("extract of captures, at fault", ["extract", "--capture", "-", *filters, "--lines", "--to", "@new"], cut,
             made=("new",), status=2),
        Call("show of captures", ["show", *both, *filters], files=files),
        Call("show of captures, at fault", ["show", "--capture", "-", "--capture", "@a"], cut, {"a": file}, status=2),
        Call("sessions", ["sessions", *both], files=files),
        Call("sessions, at fault", ["sessions", "--capture", "@a", "--capture", "-"], cut, {"a": file}, status=2),
        Call("sessions, no file", ["sessions", "--capture", "@none"], status=2, devices=("write",)),
        # A line on standard error asks whether the folder is a capture.
        Call("check of a capture as a folder", ["check", "@a"], files=files, status=FAULT, devices=()),
        Call("check --each of a capture as a folder", ["check", "@a", "--each"], files=files, status=FAULT, devices=()),
    ]


def calls_over_ports():
    limits = ["--limit", "64"]
    loop = ["loop", "--session", "SESSION001", *limits, "--server-limit", "64", "--window", "4"]
    loop += ["--drop-a", "2", "--drop-b", "2"]
    publish = ["publish", "--session", "SESSION001", *limits, "--journal", "@new"]
    publish += ["--a", address(udp_peers.PUBLISHED_A), "--b", address(udp_peers.PUBLISHED_B)]
    feed = ["feed", *publish[1:], "--idle", "0"]
    published = (udp_peers.PUBLISHED_A, udp_peers.PUBLISHED_B)
    serve = ["serve", "--journal", "@old", *limits, "--bind", address(udp_peers.SERVER), "--turns", "2"]
    listen = ["listen", "--session", "SESSION001", "--window", "4", "--turns", "1000"]
    listen += ["--a", address(udp_peers.LINE_A), "--b", address(udp_peers.LINE_B), "--server", address(udp_peers.OWN)]
    sends, responds = ("read", "write", "send"), ("read", "write", "receive", "send")
    receives, existing = ("write", "receive", "send", "wait"), {"new": b"old content"}
    return [
        Call("loop", loop, LINES, devices=responds),
        Call("loop --blocks", [*loop, "--blocks"], b"\0\2AB\0\0", devices=responds),
        Call("loop, to an empty block", [*loop, "--blocks", "--end-at-empty"], b"\0\2AB\0\0", devices=responds),
        Call("publish", publish, MESSAGES, {}, ("new",), receive_lines, published, 0, sends),
        Call("publish over a file", publish, MESSAGES, existing, ("new",), receive_lines, published, 0, sends),
        # `feed` also waits for nothing, to read its clock. If such a wait fails, nothing is lost.
        Call("feed", feed, MESSAGES, {}, ("new",), receive_lines, published, 0, sends, ("wait",)),
        Call("feed over a file", feed, MESSAGES, {"new": OPEN}, ("new",), receive_lines, published, 0, sends,
             ("wait",)),
        Call("feed, to an empty block", [*feed, "--blocks", "--end-at-empty"], b"\0\2AB\0\0", {}, ("new",),
             receive_lines, published, 0, sends, ("wait",)),
        Call("serve", serve, b"", {"old": OLD}, (), request_messages, (udp_peers.REQUESTING,), 0, responds),
        Call("serve, a file with records", serve, b"", {"old": RECORDS}, (), request_messages,
             (udp_peers.REQUESTING,), 0, responds),
        Call("serve, refused", serve, b"", {"old": OLD[:-1]}, status=2),
        Call("listen", listen, b"", {}, (), send_messages, (udp_peers.FEEDING, udp_peers.OWN), 0, receives),
    ]


def all_calls():
    examples = os.path.join(processes.TOP, "examples")
    packets, script = (processes.content_of(os.path.join(examples, it)) for it in ("packets.hex", "two-receivers.sim"))
    pack = ["pack", "--session", "SESSION001", "--limit", "64"]
    sim = ["sim", "--session", "SESSION001", "--limit", "64", "--server-limit", "64", "--window", "4"]
    whole = HEX + b"0000000000000001000100024142\n" + HEX + b"0000000000000002ffff\n"
    captured = HEX + b"0000000000000001000100024142\n\n" + HEX + b"0000000000000005ffff\n"
    return [
        Call("show", ["show"], packets, status=2),
        Call("show, two-messages", ["show"], HEX + b"00000000000000010002000241420000\n"),
        Call("show --request", ["show", "--request"], HEX + b"00000000000000010002\n" + HEX + b"\n", status=2),
        Call("pack", pack, LINES),
        Call("pack, pack-two-messages", pack, b"4142\n\n"),
        Call("pack --blocks", [*pack, "--blocks"], b"\0\2AB\0\0"),
        Call("pack --blocks --end-at-empty", [*pack, "--blocks", "--end-at-empty"], b"\0\1A\0\0"),
        Call("pack --blocks, refused", [*pack, "--blocks", "--end-at-empty"], b"\0\2AB", status=2),
        Call("pack, refused", pack, MESSAGES + b"4\n", status=2),
        Call("sim", sim, script, status=2),
        Call("check of lines", ["check", "-"], captured, status=1),
        Call("check --digest of lines", ["check", "-", "--digest"], captured, status=1),
        Call("check --each of lines", ["check", "-", "--each"], captured, status=1),
        Call("check --journal of lines", ["check", "-", "--journal", "@new"], whole, made=("new",)),
        Call("check --journal over a file", ["check", "-", "--journal", "@new"], whole, {"new": b"old content"},
             made=("new",)),
        Call("extract of lines", ["extract", "-", "--lines", "--to", "@new"], captured, made=("new",)),
        Call("extract of no lines", ["extract", "-", "--lines", "--to", "@new"], made=("new",)),
        Call("extract of blocks with holes", ["extract", "-", "--blocks", "--to", "@new"], captured, made=("new",),
             status=1),
        Call("check of lines, refused", ["check", "-"], b"\n" + HEX + b"\n", status=2),
        *calls_of_files(),
        *calls_of_captures(),
        *calls_over_ports(),
        Call("help", ["--help"], devices=("write",)),
        Call("help of a command", ["listen", "--help"], devices=("write",)),
        Call("the version", ["--version"], devices=("write",)),
        Call("a usage fault", ["pack", "--session", "SESSION001", "--limit", "63"], status=FAULT, devices=()),
        Call("an address fault", ["serve", "--journal", "x", "--bind", "nowhere"], status=FAULT, devices=()),
        Call("a read fault", ["check", "@none"], status=FAULT, devices=()),
    ]


@dataclass
class Trial:
    """A call of the program to run with faults, its sockets, and its outcome if no system call fails."""

    mold: str
    call: Call
    room: Room
    own: list
    full: processes.Outcome = None

    def run(self, environment, output=None):
        """The outcome of the call, including its files and the datagrams that it sent. Its standard output is the given
        one, if there is one."""
        call, folder = self.call, self.room.folder
        shutil.rmtree(folder, ignore_errors=True)
        os.mkdir(folder)
        for name, content in call.files.items():
            processes.put(os.path.join(folder, name), content)
        self.room.clear()
        arguments = [os.path.join(folder, it[1:]) if it.startswith("@") else it for it in call.arguments]
        for socket in self.own:
            udp_peers.arrived(socket)
        with processes.running([self.mold, *arguments], call.given, environment, output=output) as process:
            received = call.peer(process, self.own) if call.peer else []
            outcome = processes.finish(process)
        outcome.made = {name: processes.content_of(os.path.join(folder, name)) for name in (*call.files, *call.made)}
        outcome.made |= {f"port {index}": datagrams for index, datagrams in enumerate(received)}
        return outcome

    def runs(self, environment):
        """The outcomes of repeated runs, each with the number of remaining runs."""
        for remaining in reversed(range(TRIES if self.call.peer else 1)):
            yield remaining, self.run(environment)

    def is_prefix(self, name, got):
        """Whether a file or a port's datagrams are as before the call, or a prefix of those of a run without faults."""
        if got == self.call.files.get(name):
            return True
        if name in self.call.files and name not in self.call.made or self.full.made[name] is None:
            return False
        full = self.full.made[name]
        # An open journal of version 3 ends with a zero byte, which the next record replaces.
        is_open = isinstance(got, bytes) and got[:8] == RECORDS[:8] and got.endswith(b"\0")
        return full[: len(got)] == got or is_open and full.startswith(got[:-1])


def with_ports(mold, call, room, try_all):
    """Runs `try_all` on a call while no other call uses its ports, and returns its result."""
    key = call.ports or call.name
    with LOCKS.setdefault(key, threading.Lock()):
        if key not in BOUND:
            BOUND[key] = [udp_peers.bound(it) for it in call.ports]
        trial = Trial(mold, call, room, BOUND[key])
        trial.full = trial.run(room.environment(0))
        if trial.full.status != call.status:
            return f"without faults it ends with status {trial.full.status} and {trial.full.errors[:200]!r}", ""
        return try_all(trial)


def report(name, try_check, lock):
    """Runs a check, prints a line for it, and returns whether it passed."""
    why, summary = try_check()
    with lock:
        print(f"FAILED  {name}: {why}" if why else f"passed  {name}: {summary}", flush=True)
    return not why
