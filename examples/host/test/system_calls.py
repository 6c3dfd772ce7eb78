"""What a host asks of the system, seen by strace: the order of its calls, a kill before each of them, and each of them failing."""
import os
import re
import subprocess
import tempfile

import messages
import table_file
from table_file import Failure

# Held before each trial: both owners hold a message under the same key.
HELD = {(1, 5, 2): messages.make(5, 2, 1), (2, 5, 2): messages.make(5, 2, 2), (1, 6, 1): messages.make(6, 1, 3)}
NEW, REPLACING = messages.make(7, 0, 4), messages.make(5, 2, 5)
# Calls of owner 1: a line, and what is held once it is answered 0.
TRIALS = (
    (f"store {NEW.hex()}\n", HELD | {(1, 7, 0): NEW}),
    (f"store {REPLACING.hex()}\n", HELD | {(1, 5, 2): REPLACING}),
    (f"store {HELD[1, 5, 2].hex()}\n", HELD),
    ("remove 6 1\n", {key: message for key, message in HELD.items() if key != (1, 6, 1)}),
)
# Calls of the system without which there must be no answer of 0, and the errors that they are made to give.
NEEDED = {"openat": "ENOSPC", "open": "ENOSPC", "flock": "EINTR", "read": "EIO", "write": "ENOSPC", "fsync": "EIO", "rename": "ENOSPC"}


class Trace:
    """A run of a host under strace: its answer, and the system calls as (name, arguments, result)."""

    def __init__(self, words, line="", tamper=None):
        with tempfile.NamedTemporaryFile("r") as log:
            options = ["-e", f"inject={tamper}"] if tamper else []
            ran = subprocess.run(["strace", "-qq", "-s", "16", "-o", log.name, *options, *words], input=line, capture_output=True, text=True)
            found = (re.match(r"(\w+)\((.*)\)\s+= (-?\d+|\?)", text) for text in log)
            self.calls = [match.groups() for match in found if match]
        self.answer, self.words, self.status = ran.stdout, ran.stderr, ran.returncode

    def first(self, start, name, *parts):
        """The place of the first successful call of a name at or behind a place whose arguments hold these parts."""
        for place in range(start, len(self.calls)):
            found, arguments, result = self.calls[place]
            if re.fullmatch(name, found) and result not in ("-1", "?") and all(part in arguments for part in parts):
                return place
        raise Failure(f"no {name} {' '.join(parts)} where one must be")

    def result(self, place):
        return self.calls[place][2]

    def numbered(self):
        """The calls as (place, name, which of that name)."""
        seen = {}
        for place, (name, _, _) in enumerate(self.calls):
            seen[name] = seen.get(name, 0) + 1
            yield place, name, seen[name]


def write_file(path, held):
    with open(path, "wb") as file:
        file.write(table_file.make(held))


def call_words(host, path):
    return [host, "calls", path, "1"]


def check_order(trace, path):
    """Lock, read, write beside, fsync, rename, fsync of the folder, then the answer; gives the places of lock, rename and answer."""
    locked = trace.first(0, "flock", "LOCK_EX")
    read = trace.first(locked, "openat?", f'"{path}"', "O_RDONLY")
    opened = trace.first(read, "openat?", f'"{path}.new"', "O_WRONLY")
    descriptor = trace.result(opened)
    synced = trace.first(opened, "fsync", descriptor)
    written = sum(int(result) for name, arguments, result in trace.calls[opened:synced] if name == "write" and arguments.startswith(f"{descriptor},"))
    if written != table_file.FILE_SIZE:
        raise Failure(f"{written} bytes are written before fsync")
    renamed = trace.first(synced, "rename(at2?)?", f'"{path}.new"', f'"{path}"')
    folder = trace.first(renamed, "openat?", f'"{os.path.dirname(path)}"', "O_DIRECTORY")
    lasting = trace.first(folder, "fsync", trace.result(folder))
    unlocked = trace.first(locked, "close", trace.calls[locked][1].split(",")[0])
    answered = trace.first(0, "write", '1, "0\\n"')
    if unlocked < lasting or answered < lasting:
        raise Failure("the lock is given back, or the answer given, before the folder is synced")
    return locked, renamed, answered


def was_killed(trace):
    return trace.status == -9


def enough(came, calls):
    """Gives how many kills came: which system calls a start makes differs a little from run to run."""
    if came < 0.9 * len(calls):
        raise Failure(f"of {len(calls)} kills only {came} came")
    return came


def check_kills(host, path, line, after, calls):
    """A kill before each system call leaves the old table or the new one, and what was answered is there; gives how many came."""
    came = 0
    for _, name, which in calls:
        write_file(path, HELD)
        trace = Trace(call_words(host, path), line, f"{name}:signal=SIGKILL:when={which}")
        came += was_killed(trace)
        held = table_file.read(path)
        if held != after and (held != HELD or trace.answer):
            raise Failure(f"killed at {name} {which}, it leaves a table that is neither the old nor the new one, or loses an answered call")
        follow = subprocess.run([host, "remove", path, "2", "5", "2"], capture_output=True, text=True)
        if follow.returncode != 0 or (2, 5, 2) in table_file.read(path):
            raise Failure(f"after a kill at {name} {which} the other owner is not answered: {follow.stderr.strip()}")
    return enough(came, calls)


def check_failures(host, path, line, after, calls, renamed):
    """A system call that fails is never answered 0, and leaves the old table, or the new one where only the folder is not synced."""
    for place, name, which in calls:
        write_file(path, HELD)
        trace = Trace(call_words(host, path), line, f"{name}:error={NEEDED[name]}:when={which}")
        held = table_file.read(path)
        if trace.answer not in ("failed\n", "") or not trace.words or held != (HELD if place <= renamed else after):
            raise Failure(f"with {name} {which} failing it answers {trace.answer.strip()!r}: {trace.words.strip()}")
        if os.path.exists(path + ".new"):
            raise Failure(f"with {name} {which} failing it leaves the new file behind")


def check_new(host, path):
    """The same kills where a file is made."""
    words, came = [host, "new", path], 0
    calls = [call for call in Trace(words).numbered() if call[1] != "execve"]
    for _, name, which in calls:
        for ending in ("", ".new"):
            if os.path.exists(path + ending):
                os.remove(path + ending)
        came += was_killed(Trace(words, tamper=f"{name}:signal=SIGKILL:when={which}"))
        if os.path.exists(path) and table_file.read(path) != {}:
            raise Failure(f"killed at {name} {which}, new leaves something else than an empty table")
    return enough(came, calls)


def run(host, folder):
    path = os.path.join(os.path.realpath(folder), "traced")
    kills, failures = check_new(host, path), 0
    for line, after in TRIALS:
        write_file(path, HELD)
        trace = Trace(call_words(host, path), line)
        locked, renamed, answered = check_order(trace, path)
        if table_file.read(path) != after:
            raise Failure(f"{line.split()[0]} does something else")
        calls = [call for call in trace.numbered() if call[1] != "execve"]
        needed = [call for call in calls if locked <= call[0] < answered and call[1] in NEEDED]
        kills += check_kills(host, path, line, after, calls)
        check_failures(host, path, line, after, needed, renamed)
        failures += len(needed)
    print(f"host: system calls in the right order; {kills} kills, one before each system call of new, store and remove, and {failures} system calls that fail: nothing lost")
