"""One owner's calls: which are made, what must be answered, and what must be in the file after a kill."""
import os
import random
import subprocess
import time

import messages
from table_file import OWNER_SLOTS, Failure

FULL, NONE, TABLE = 16, 17, 18
# More calls than a process answers before it is killed.
CALLS = 600


class Owner:
    """Owner 1 asks for at most twelve keys, so that owner 2, who asks for more, meets FULL with its 21st key alone."""

    def __init__(self, number, host, path, seed):
        self.number, self.host, self.path = number, host, path
        self.random = random.Random(f"{seed} {number}")
        self.keys = [(sin, group) for sin in range(4 if number == 1 else 8) for group in range(3)]
        self.held = {}
        self.serial = 0
        self.kills = self.acknowledged = self.failed = self.lost = self.unused_kills = self.committed = 0

    def next_call(self):
        """A call as (word, key, message)."""
        key = self.random.choice(self.keys)
        word = self.random.choices(("store", "remove", "find"), (6, 2, 2))[0]
        self.serial += 1
        return word, key, messages.make(*key, self.serial) if word == "store" else None

    def line(self, call):
        word, key, message = call
        return f"{word} {message.hex()}\n" if message else f"{word} {key[0]} {key[1]}\n"

    def expected(self, call):
        """The line that must answer a call."""
        word, key, message = call
        if word == "store":
            return str(FULL if key not in self.held and len(self.held) == OWNER_SLOTS else 0)
        if key not in self.held:
            return str(NONE)
        return "0" if word == "remove" else f"0 {self.held[key].hex()}"

    def after(self, call):
        """What is held after a call."""
        word, key, message = call
        held = dict(self.held)
        if self.expected(call).split()[0] == "0":
            if word == "store":
                held[key] = message
            elif word == "remove":
                del held[key]
        return held

    def take_answers(self, calls, answers, may_fail, may_refuse):
        """Takes the answers of the first calls into account; gives the call that was at work, if any."""
        for call, answer in zip(calls, answers):
            if (answer == "failed" and may_fail) or (answer == str(TABLE) and may_refuse):
                self.failed += 1
                continue
            if answer != self.expected(call):
                raise Failure(f"owner {self.number}: {self.line(call).strip()} was answered {answer}, not {self.expected(call)}")
            self.held = self.after(call)
            self.acknowledged += 1
        return calls[len(answers)] if len(answers) < len(calls) else None

    def compare(self, held, at_work):
        """Compares what the file holds with the calls acknowledged, and with the one at work, which may be in it or not."""
        mine = {key[1:]: message for key, message in held.items() if key[0] == self.number}
        if at_work and mine != self.held and mine == self.after(at_work):
            self.held = mine
            self.committed += 1
        if mine != self.held:
            self.lost += sum(mine.get(key) != self.held.get(key) for key in set(mine) | set(self.held))
            raise Failure(f"owner {self.number}: {self.lost} acknowledged calls are lost")

    def start(self, limit):
        """Starts a process of this owner; limit is the size of files from which on its disk is full."""
        words = [self.host, "calls", self.path, str(self.number)]
        if limit is not None:
            words = ["prlimit", f"--fsize={limit}"] + words
        return subprocess.Popen(words, stdin=subprocess.PIPE, stdout=subprocess.PIPE, stderr=subprocess.PIPE)

    def run_and_kill(self, longest, limit=None, may_refuse=False):
        """Lets a process work and kills it at a random moment of the longest time; gives the call at work."""
        calls = [self.next_call() for _ in range(CALLS)]
        process = self.start(limit)
        os.write(process.stdin.fileno(), "".join(map(self.line, calls)).encode())
        time.sleep(self.random.uniform(0, longest))
        process.kill()
        output, words = process.communicate()
        text = output.decode()
        if text and not text.endswith("\n"):
            raise Failure("an answer is not whole")
        answers = text.splitlines()
        if limit is None and not may_refuse and words:
            raise Failure(f"a process says: {words.decode().strip()}")
        at_work = self.take_answers(calls, answers, limit is not None, may_refuse)
        if at_work:
            self.kills += 1
        else:
            self.unused_kills += 1
        return at_work
