"""The table of tests/options: where each option of each command is tested."""
import os
import re
import subprocess

import processes

# What follows the name of a check that tests the default of an option, and so does not need the option.
DEFAULT = ", by default"
FORMER = "tests/program-checks"
# For each option of a command, the checks of tests/options that need it or its default, and other tests in which it
# occurs: a script and a name in it, or a file of cases and the name of a case.
ROWS = {
    "receive": {
        "session": ("next", "from now"),
        "learn": ("learn on b", "times after a wait", "tests/repair:try_learn"),
        "next": ("next",),
        "from-now": ("from now",),
        "a": ("turns of lines", "buffers and drops", "sources"),
        "b": ("turns of lines", "buffers and drops", "sources", "eight servers"),
        "source-a": ("sources", "learn on b"),
        "source-b": ("sources", "quiet among strangers"),
        "server": ("eight servers", "buffers and drops"),
        "any-responder": ("tests/strangers:try_any_responder",),
        "window": ("window",),
        "store": ("tests/repair:try_store", "tests/strangers:try_store"),
        "patience": ("patience", "late line, by default"),
        "timeout": ("timeouts", "rest of a response"),
        "ceiling": ("timeouts",),
        "requests": ("requests at once", "tests/repair:try_rate"),
        "in-flight": ("in flight",),
        "give-up": ("give up", "tests/repair:try_give_up"),
        "audit": ("audit", "contradictions, by default"),
        "quiet": ("quiet", "quiet among strangers", "times after a wait"),
        "stats": ("stats", "refusals", "times after a wait"),
        "journal": ("recorder", "tests/repair:Recording", "tests/strangers:try_record_responder"),
        "no-sync": ("tests/repair:try_journal", "tests/recorded-calls:WRONG"),
        "blocks": ("tests/repair:try_blocks",),
        "end-at-empty": ("tests/repair:try_mark",),
    },
    "feed": {
        "session": ("tests/feed:Feeding",),
        "limit": ("tests/feed:test_rows",),
        "a": ("feed requests", "tests/feed:test_group"),
        "b": ("feed requests",),
        "interface-a": ("tests/journal_scenes.py:INTERFACES", "tests/feed:test_group"),
        "interface-b": ("tests/journal_scenes.py:INTERFACES",),
        "ttl": ("tests/journal_scenes.py:INTERFACES", "tests/feed:test_group"),
        "journal": ("tests/feed:Feeding",),
        "append": ("tests/feed:test_rows",),
        "bind": ("feed requests", "tests/feed:test_requests"),
        "burst": ("tests/feed:test_requests",),
        "rate": ("feed rate", "tests/feed:test_rate"),
        "idle": ("tests/feed:test_idle",),
        "beats": ("tests/feed:test_rows",),
        "ends": ("tests/feed:test_rows",),
        "open": ("tests/feed:test_rows",),
        "linger": ("tests/feed:test_idle",),
        "blocks": ("tests/feed:test_rows", "tests/feed:test_blocks_of_a_pipe"),
        "end-at-empty": ("tests/feed:test_rows", "tests/feed:test_blocks_of_a_pipe"),
    },
    "serve": {
        "journal": ("serve long messages", "tests/strangers:try_serve"),
        "follow": ("tests/follow:Checks",),
        "limit": ("serve long messages", "tests/strangers:SETTINGS"),
        "burst": ("tests/strangers:SETTINGS",),
        "bind": ("serve long messages", "buffers of turns"),
        "turns": ("tests/strangers:try_serve",),
        "live": (f"{FORMER}:test_live_output",),
    },
    "listen": {
        "session": ("listen beside",),
        "next": (f"{FORMER}:test_serving_and_listening_to_nobody",),
        "window": ("listen window",),
        "a": ("listen window", "buffers of turns"),
        "b": ("listen beside", "buffers of turns"),
        "server": ("listen burst", "tests/strangers:try_listen"),
        "burst": ("listen burst",),
        "turns": (f"{FORMER}:test_serving_and_listening_to_nobody",),
        "live": (f"{FORMER}:test_live_output",),
        "report": (f"{FORMER}:test_listening_with_reports",),
        "blocks": (f"{FORMER}:test_blocks_that_are_published_and_received",),
        "end-at-empty": (f"{FORMER}:test_blocks_that_end_at_an_empty_one",),
    },
    "publish": {
        "session": ("publish",),
        "limit": ("publish",),
        "a": ("publish",),
        "b": ("publish",),
        "journal": (f"{FORMER}:test_a_session_published",),
        "beats": ("publish",),
        "ends": ("publish",),
        "blocks": (f"{FORMER}:test_blocks_published",),
        "end-at-empty": (f"{FORMER}:test_blocks_that_end_at_an_empty_one",),
    },
    "loop": {
        "session": ("loop",),
        "limit": ("loop",),
        "server-limit": ("loop",),
        "window": ("loop",),
        "burst": ("loop",),
        "drop-a": ("loop", f"{FORMER}:test_loop_with_reports"),
        "drop-b": ("loop",),
        "turns": ("loop",),
        "report": (f"{FORMER}:test_loop_with_reports",),
        "blocks": (f"{FORMER}:test_loop_of_blocks",),
        "end-at-empty": (f"{FORMER}:test_loop_of_blocks_to_an_empty_one",),
    },
    "show": {
        "request": ("cases/show.txt:requests",),
        "capture": ("cases/captures.txt:captures without datagrams are shown as nothing",),
        "port": ("tests/captures_worked.py:add_shown",),
        "group": ("tests/captures_worked.py:add_shown",),
        "session": ("tests/captures_worked.py:add_shown",),
    },
    "pack": {
        "session": ("cases/pack.txt:session-padded",),
        "limit": ("cases/pack.txt:longest prefixes",),
        "journal": ("cases/pack.txt:a journal of lines",),
        "blocks": ("cases/pack.txt:blocks",),
        "end-at-empty": ("cases/pack.txt:blocks after the first empty one",),
    },
    "sim": {
        "session": ("cases/sim.txt:sim-two-receivers",),
        "limit": ("cases/sim.txt:refusals of publisher and server",),
        "server-limit": ("cases/sim.txt:bursts",),
        "window": ("cases/sim.txt:a message beyond the window",),
        "receivers": ("cases/sim.txt:one receiver",),
        "burst": ("cases/sim.txt:bursts",),
    },
    "check": {
        "capture": ("cases/extract.txt:each session of a capture",),
        "port": ("tests/captures_worked.py:add_filters",),
        "group": ("tests/captures_worked.py:add_filters",),
        "session": ("tests/captures_worked.py:add_filters",),
        "journal": ("cases/extract.txt:the journal of lines",),
        "each": ("cases/extract.txt:each of two sessions, and datagrams of none",),
        "digest": ("cases/extract.txt:each session by digest",),
    },
    "extract": {
        "capture": ("cases/extract.txt:messages of a capture",),
        "port": ("cases/extract.txt:messages of one destination of a capture",),
        "group": ("cases/extract.txt:messages of one destination of a capture",),
        "session": ("cases/extract.txt:messages of one session of a capture",),
        "to": ("cases/extract.txt:lines of a whole session",),
        "blocks": ("cases/extract.txt:blocks of a whole session",),
        "lines": ("cases/extract.txt:lines of a whole session",),
        "from": ("cases/extract.txt:lines of a range",),
        "count": ("cases/extract.txt:blocks of a range without an end packet",),
    },
    "sessions": {
        "capture": ("cases/captures.txt:captures without frames have no sessions",),
        "port": ("tests/captures_worked.py:add_sessions",),
        "group": ("tests/captures_worked.py:add_sessions",),
    },
    "upgrade": {
        "journal": ("cases/upgrade.txt:version 1, open",),
        "to": ("cases/upgrade.txt:version 1, open",),
        "close": ("cases/upgrade.txt:version 1, closed",),
    },
    "close": {
        "journal": ("cases/close.txt:an open journal",),
    },
    "dump": {
        "journal": ("cases/dump.txt:version 2",),
        "follow": ("tests/follow:Checks",),
        "from": ("cases/dump.txt:from message 2",),
        "count": ("cases/dump.txt:one message",),
        "blocks": ("cases/dump.txt:blocks of version 3",),
        "end-at-empty": ("cases/dump.txt:blocks to an empty one, of version 3",),
    },
}


def help_of(*command):
    """The help of the program or of a command, without its example."""
    found = subprocess.run([*command, "--help"], stdin=subprocess.DEVNULL, capture_output=True, text=True, check=True)
    return found.stdout.partition("\n\nExample:\n")[0]


def options_of(mold):
    """The options of each command, each with whether it has a value."""
    commands = re.findall(r"^  (\w+) ", help_of(mold).partition("Commands:\n")[2].partition("\n\n")[0], re.M)
    option = re.compile(r"^ {2,6}(?:-\w, )?--([a-z-]+)( <)?", re.M)
    return {command: {name: value != "" for name, value in option.findall(help_of(mold, command)) if name != "help"}
            for command in commands if command != "help"}


def required_of(mold):
    """The options that each command requires."""
    return {command: set(re.findall(r" --([a-z-]+)", re.search(r"^Usage: .*", help_of(mold, command), re.M)[0]))
            for command in options_of(mold)}


def block_of(file, name):
    """The function, the class, the table or the case of this name in a file of tests/."""
    with open(os.path.join(processes.TOP, "tests", file.removeprefix("tests/")), encoding="utf-8") as opened:
        text = opened.read()
    begun = re.search(rf"^(?:def |class |= )?{re.escape(name)}(?:$| = |\(|:).*", text, re.M)
    if not begun:
        return ""
    ended = re.search(r"\n(?:[a-zA-Z@]|= )", text[begun.end():])
    return text[begun.start():begun.end() + ended.start()] if ended else text[begun.start():]


def why_wrong(option, place, checks):
    """Why a row is wrong in what it states about a test, or None."""
    if place.removesuffix(DEFAULT) in checks:
        return None
    file, colon, name = place.partition(":")
    if not colon:
        return f"there is no check '{place}'"
    occurs = re.search(rf"--{option}(?![a-z-])", block_of(file, name))
    return None if occurs else f"--{option} does not occur in '{name}' of {file}"


def wrong_rows(mold, checks):
    """What is wrong with the rows. `checks` are the names of those of tests/options."""
    options = options_of(mold)
    found = [f"{command} --{name} has no row" for command in options for name in options[command]
             if name not in ROWS.get(command, {})]
    found += [f"{command} has no option --{name}" for command, rows in ROWS.items() for name in rows
              if name not in options.get(command, {})]
    places = [(command, name, place) for command, rows in ROWS.items() for name in rows for place in rows[name]]
    found += [f"{command}: {why}" for command, name, place in places if (why := why_wrong(name, place, checks))]
    unused = set(checks) - {place.removesuffix(DEFAULT) for _, _, place in places}
    return found + [f"the check '{name}' is in no row" for name in sorted(unused)]
