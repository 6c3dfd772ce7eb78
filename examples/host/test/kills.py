"""Kills processes of both owners at random moments while both are at work."""
import subprocess
import threading

import table_file
from owner import Owner
from table_file import Failure

# The longest time in seconds that a process works, and how many of a hundred work on a full disk.
LONGEST, ON_FULL_DISK = 0.012, 10
LIMITS = (0, 1, 131, 4096, 4224, 4351)


def check(host, path):
    """The library's own word on a file, which both owners may be changing."""
    answer = subprocess.run([host, "check", path], capture_output=True, text=True)
    if answer.returncode != 0:
        raise Failure(f"the file is refused: {answer.stderr.strip()}")


def kill_often(owner, kills, failures):
    """Kills processes of one owner, and looks at the file after each kill."""
    try:
        while owner.kills < kills and not failures:
            full = owner.random.randrange(100) < ON_FULL_DISK
            at_work = owner.run_and_kill(LONGEST, owner.random.choice(LIMITS) if full else None)
            owner.compare(table_file.read(owner.path), at_work)
            check(owner.host, owner.path)
    except Exception as failure:
        failures.append(failure)


def run(host, path, kills, seed):
    """Both owners at work at once, until each was killed half of the times; prints what was counted."""
    with open(path, "wb") as file:
        file.write(table_file.make({}))
    owners = [Owner(number, host, path, seed) for number in (1, 2)]
    failures = []
    threads = [threading.Thread(target=kill_often, args=(owner, (kills + 1) // 2, failures)) for owner in owners]
    for thread in threads:
        thread.start()
    for thread in threads:
        thread.join()
    if failures:
        raise failures[0]
    final = table_file.read(path)
    for owner in owners:
        owner.compare(final, None)
    total = lambda name: sum(getattr(owner, name) for owner in owners)
    print(
        f"host: {total('kills')} kills at work ({total('unused_kills')} more of idle processes), {total('acknowledged')} calls acknowledged,"
        f" {total('failed')} failed on a full disk, {total('lost')} lost, 0 tables refused;"
        f" {total('committed')} kills came between commit and answer"
    )
