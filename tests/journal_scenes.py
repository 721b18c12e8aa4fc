"""Scenes in which the program works on a journal file, each with a peer over UDP on this machine. For
tests/failing-calls and tests/recorded-calls."""
import os
import select
import struct
import time
from dataclasses import dataclass

import model
import processes
import udp_peers

# The time limit of a run, in seconds.
PATIENCE = 20
# Seconds between two tries of a peer.
AGAIN = 0.05
NAME = "FAILING"
SESSION = model.padded(NAME)
# The turns of a server, of which a busy machine may waste most.
TURNS = 40
MESSAGES = [b"AB", b"", b"C", b"DDDD", b"E" * 30, b"FF"]
# The numbers of ports: those of the lines, of the program's requests, and of a server and a client of the script.
LINES, BIND, SERVER, CLIENT = (9001, 9002), 9003, 9004, 9005
# The files are in memory if possible.
FOLDER = "/dev/shm" if os.path.isdir("/dev/shm") else None
# What a run may come to, besides the words of faults: nothing differs, a failure is counted, or signal 9 ended it.
SAME, COUNTED, KILLED = "same", "counted", "killed"
# The addresses that the lines are sent from, and the TTL of a publisher.
SENDERS, TTL = ("127.0.0.1", "127.0.0.2"), 9
INTERFACES = [f"--interface-a={SENDERS[0]}", f"--interface-b={SENDERS[1]}", f"--ttl={TTL}"]
# The sockets of this process, by their ports.
OWN = {}


class Wrong(Exception):
    """A run that is wrong, for the given reason."""


def need(holds, *why):
    if not holds:
        raise Wrong(" ".join(str(it)[:300] for it in why))


def own(port):
    if (os.getpid(), port) not in OWN:
        OWN[os.getpid(), port] = udp_peers.bound(port)
    return OWN[os.getpid(), port]


def close_own(*ports):
    """Closes sockets of the script, so that the program can open their ports."""
    for port in ports:
        if (os.getpid(), port) in OWN:
            OWN.pop((os.getpid(), port)).close()


def address(port):
    return f"{udp_peers.own_host()}:{port}"


def lines_of(messages):
    return b"".join(it.hex().encode() + b"\n" for it in messages)


def file_of(messages, is_closed=False):
    return model.record_file(SESSION, messages, is_closed)


def data(first, last):
    return model.encoding(model.Packet("data", SESSION, first, tuple(MESSAGES[first - 1 : last])))


def request(first, count):
    return SESSION + struct.pack(">QH", first, count)


END = model.encoding(model.Packet("end", SESSION, len(MESSAGES) + 1))


def kept_in(path):
    """The messages of a file and whether it is closed, or None without a file."""
    content = processes.content_of(path)
    if content is None:
        return None
    try:
        journal = model.journal_of(content)
    except model.Refused as why:
        raise Wrong(f"the file is refused: {why}, {content.hex()}") from None
    need(journal.session == SESSION, "the file has session", journal.session)
    need(journal.messages == MESSAGES[: len(journal.messages)], "the file has", journal.messages)
    return len(journal.messages), journal.is_closed


# The peers of the program. Each returns the datagrams that the program has sent.


def ended(process):
    return process.poll() is not None


def turns(process):
    """Gives turns of at most some milliseconds, until the program has ended. Each turn says whether it is time to try
    again."""
    until, again = time.monotonic() + PATIENCE, 0.0
    while not ended(process):
        now = time.monotonic()
        need(now < until, "it does not end")
        yield now >= again
        again = now + AGAIN if now >= again else again


def wait_for(*sockets, seconds=0.003):
    return select.select(sockets, [], [], seconds)[0]


def taken(*sockets):
    return [it for one in sockets for it, _ in udp_peers.arrived(one)]


def watch(process, _):
    """Receives the lines of a publisher."""
    sockets, sent = [own(it) for it in LINES], []
    for _ in turns(process):
        wait_for(*sockets)
        sent += taken(*sockets)
    return sent + taken(*sockets)


def ask(process, _):
    """Receives the lines of a publisher, and requests its messages until they have come once."""
    sockets, sent, responses = [own(it) for it in LINES], [], []
    for is_time in turns(process):
        wait_for(*sockets, own(CLIENT))
        sent += taken(*sockets)
        responses += taken(own(CLIENT))
        if is_time and sent and not responses:
            own(CLIENT).sendto(request(1, len(MESSAGES)), (udp_peers.own_host(), BIND))
    responses += taken(own(CLIENT))
    return sent + responses + taken(*sockets)


def publish(process, path):
    """Sends messages 1 and 2 until a recorder has them, and then the last two and the end, and responds to requests for
    the others."""
    host, server = udp_peers.own_host(), own(SERVER)
    for is_time in turns(process):
        kept = kept_in(path)
        count = kept[0] if kept else 0
        if is_time and count < 2:
            server.sendto(data(1, 2), (host, LINES[0]))
        elif is_time:
            server.sendto(data(5, 6), (host, LINES[0]))
            server.sendto(END, (host, LINES[1]))
        wait_for(server)
        for it, sender in udp_peers.arrived(server):
            asked = model.request_of(it)
            need(0 < asked.sequence <= len(MESSAGES), "it requests", asked)
            server.sendto(data(asked.sequence, min(asked.sequence + asked.count - 1, len(MESSAGES))), sender)
    return []


def extend(path):
    """Adds the messages after the second to a file, and closes it, as another process does."""
    with open(path, "r+b", buffering=0) as file:
        gate = len(file_of(MESSAGES[:2])) - 1
        file.seek(gate + 1)
        file.write(file_of(MESSAGES, True)[gate + 1 :])
        file.seek(gate)
        file.write(b"\1")


def request_twice(process, path):
    """Requests the messages of a file, extends it, and requests the others. Then requests that are refused end the
    server's turns."""
    client, host, sent = own(CLIENT), udp_peers.own_host(), []
    for is_time in turns(process):
        top = max((model.packet_of(it).top() - 1 for it in sent), default=0)
        if top >= 2 and kept_in(path)[0] == 2:
            extend(path)
        if is_time:
            for it in [b""] * TURNS if top > 2 else [request(top + 1, 2)]:
                client.sendto(it, (host, BIND))
        wait_for(client)
        sent += taken(client)
    return sent + taken(client)


def none(process, _):
    """There is no peer."""
    process.wait(PATIENCE)
    return []


def extend_read(process, path):
    """Extends a file when its messages are printed."""
    # The program writes at the offset of this descriptor, which `pread` does not move.
    output = processes.streams()[1].fileno()
    for _ in turns(process):
        if kept_in(path)[0] == 2 and os.pread(output, 65536, 0).count(b"\n") >= 2:
            extend(path)
        time.sleep(0.002)
    return []


# The scenes.


@dataclass
class Scene:
    """A command, its input and file, and the peer that runs in parallel."""

    name: str
    # The arguments. @ is the path of the file.
    arguments: list
    peer: object
    # The messages of the file before, or None without a file.
    before: int = None
    given: bytes = b""
    # The bytes of a file that an interrupted creation left.
    left: bytes = None
    # The beginning of the last line without failures, and whether it comes on standard error.
    last: bytes = b""
    is_on_errors: bool = False
    # Whether the file is replaced by a closed journal of version 2.
    replaces: bool = False


def ports():
    return [f"--{name}={address(port)}" for name, port in zip("ab", LINES)]


def scenes():
    """All scenes by their names."""
    feed = ["feed", f"--session={NAME}", "--journal=@", *ports(), "--rate=200", "--idle=0"]
    fed = {"given": lines_of(MESSAGES), "last": b"published 6 datagrams "}
    asked = [*feed, f"--bind={address(BIND)}"]
    pack = ["pack", f"--session={NAME}", "--limit=64", "--journal=@"]
    record = ["receive", f"--session={NAME}", "--journal=@", *ports(), f"--server={address(SERVER)}"]
    learn, unsynced = ["receive", "--learn", *record[2:]], [*record, "--no-sync"]
    recorded = {"last": b"finished next 7 lost 0 ", "is_on_errors": True}
    serve = ["serve", "--journal=@", f"--bind={address(BIND)}", "--follow", f"--turns={TURNS}"]
    all_scenes = (
        Scene("feed, a new file", feed, watch, **fed),
        Scene("feed, a file with messages", feed, watch, 2, **fed),
        Scene("feed, after an interrupted creation", feed, watch, left=b"MOLDJNL3FAI", **fed),
        Scene("feed, two interfaces", [*feed, *INTERFACES], watch, **fed),
        Scene("feed, requests", [*asked, "--linger=100"], ask, **fed),
        Scene("feed, responses", [*asked, "--linger=1000"], ask, **fed),
        Scene("receive, a new file", record, publish, **recorded),
        Scene("receive, a file with messages", record, publish, 1, **recorded),
        Scene("receive, a session to learn", learn, publish, **recorded),
        Scene("receive --no-sync, a new file", unsynced, publish, **recorded),
        Scene("receive --no-sync, a file with messages", unsynced, publish, 1, **recorded),
        Scene("serve --follow", serve, request_twice, 2, last=b"answered "),
        Scene("dump --follow", ["dump", "--journal=@", "--follow"], extend_read, 2),
        Scene("close", ["close", "--journal=@"], none, len(MESSAGES), last=b"closed 6\n"),
        Scene("pack --journal over a file", pack, none, len(MESSAGES), fed["given"], last=b"saved 6\n", replaces=True),
    )
    return {it.name: it for it in all_scenes}


# Runs and their judgement.


@dataclass
class Run:
    """What a run did."""

    status: int
    text: bytes
    errors: bytes
    # The datagrams that it sent on its lines and to its clients.
    sent: list


def word_of(run):
    """The word of the fault that a run reports, or KILLED."""
    if run.status == 137:
        return KILLED
    line = (run.errors.splitlines(True) or [b""])[-1]
    need(line.startswith(b"fault ") and line.endswith(b"\n"), "it printed", run.errors)
    return line.split()[1].decode()


class Stage:
    """Plays a scene in a folder. The arguments name the file by `named`, as it is called in the folder `at`."""

    def __init__(self, mold, scene, folder, named=None, at=None):
        self.mold, self.scene, self.folder, self.at = mold, scene, folder, at
        self.path = os.path.join(folder, "day.journal")
        self.named = named or self.path

    def prepare(self):
        before = self.scene.before
        processes.put(self.path, None if before is None else file_of(MESSAGES[:before]))
        processes.put(f"{self.path}.new", self.scene.left)

    def run(self, added=None):
        """Runs the command, with these variables added to its environment."""
        if self.scene.peer is publish:
            close_own(*LINES)
        taken(*map(own, (SERVER, CLIENT, *(LINES if self.scene.peer in (watch, ask) else ()))))
        command = [self.mold, *(it.replace("@", self.named) for it in self.scene.arguments)]
        with processes.running(command, self.scene.given, os.environ | (added or {}), folder=self.at) as process:
            sent = self.scene.peer(process, self.path)
            outcome = processes.finish(process)
        return Run(outcome.status, outcome.text, outcome.errors, sent)

    def outcome(self, run, before):
        """What a run came to: SAME, COUNTED, KILLED, or the word of a fault. It fails if it is false to the file."""
        if self.scene.replaces:
            return self.outcome_of_replacing(run)
        kept = kept_in(self.path)
        count, is_closed = kept or (0, False)
        need(before is None or kept is not None and count >= before, "of", before, "messages", count, "are left")
        for it in map(model.packet_of, run.sent):
            need(it.session == SESSION and it.top() - 1 <= count, "the file has", count, "and it sent", it)
            need(list(it.messages) == MESSAGES[it.sequence - 1 : it.top() - 1], "it sent", it)
            need(it.kind != "end" or is_closed and it.sequence == count + 1, "it sent", it, "with", count, "kept")
        text = run.errors if self.scene.is_on_errors else run.text
        lines = text.splitlines(True)
        if lines and lines[0].startswith(b"resumed "):
            need(lines.pop(0) == b"resumed %d\n" % (before if before is not None else -1), "it printed", text)
        if run.status in (3, 137):
            self.expect_prefix(run.text)
            return word_of(run)
        if run.status == 2 and self.scene.arguments[0] == "close":
            # An earlier run has closed the file.
            need(is_closed and run.text == b"refused Closed\n", "it refuses an open file:", run)
            return SAME
        need(run.status == 0, "it ended with status", run.status, run.text, run.errors)
        self.expect_whole(run, lines)
        need(count == len(MESSAGES) and is_closed, "the file has", count, "messages, closed:", is_closed)
        return COUNTED if lines and b"failed " in lines[-1] and not lines[-1].endswith(b"failed 0\n") else SAME

    def outcome_of_replacing(self, run):
        """The same for a command that replaces the file: it is unchanged, or has a prefix of the new content."""
        full, content = model.journal_file(SESSION, MESSAGES, True), processes.content_of(self.path)
        if run.status in (3, 137):
            before = file_of(MESSAGES[: self.scene.before])
            need(content == before or full.startswith(content), "the file has", content)
            return word_of(run)
        need((run.status, run.text, run.errors) == (0, self.scene.last, b""), "it comes to", run)
        need(content == full, "the file has", content)
        return SAME

    def expect_prefix(self, text):
        if self.scene.peer is extend_read:
            need(lines_of(MESSAGES).startswith(text), "it printed", text)

    def expect_whole(self, run, lines):
        if self.scene.peer is extend_read:
            need(run.text == lines_of(MESSAGES), "it printed", run.text)
            return
        need(lines and lines[-1].startswith(self.scene.last), "it printed", run.text, run.errors)
        if self.scene.peer is request_twice:
            tops = {model.packet_of(it).top() - 1 for it in run.sent}
            need(max(tops) > 2, "it sent", run.sent)
        if self.scene.name == "feed, responses":
            need(int(lines[-1].split()[5]) > 0 or b"failed 0" not in lines[-1], "no request is answered", lines)
