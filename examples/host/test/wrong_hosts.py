#!/usr/bin/env python3
"""wrong_hosts.py SOURCE INCLUDE LIBRARY: builds hosts with one mistake each, and fails where a part of the test does not notice it."""
import os
import subprocess
import sys
import tempfile

# Each mistake: the parts of the test that must notice it, and its edits as (file, old text, new text).
LOCK = "flock(lock, LOCK_EX)"
COMMIT = "(answer.refusal == TARNOKLEJ_DONE || mended) && !kept_commit(file, &copy)"
READ = "    call_answer answer = read_agreeing(file, &copy, &mended);\n    if (answer.outcome == CALL_ANSWERED && answer.refusal == TARNOKLEJ_DONE) {\n"
MISTAKES = {
    "writes in place": (
        ("system_calls", "kills"),
        [("file.c", "open(file->fresh,", "open(file->name,"), ("file.c", "rename(file->fresh, file->name) != 0", "0")],
    ),
    "answers before the commit": (
        ("system_calls", "kills"),
        [("lines.c", "print_answer(call_store(file, owner, &message), NULL, line);", 'write(1, "0\\n", 2), call_store(file, owner, &message), line[0] = 0;')],
    ),
    "takes no lock": (("system_calls", "damage", "kills"), [("file.c", LOCK, "0 * lock")]),
    "locks the file that is renamed": (("system_calls", "kills"), [("file.c", 'with_ending(file.name, ".lock")', 'with_ending(file.name, "")')]),
    "gives the lock back before the commit": (
        ("system_calls", "kills"),
        [("calls.c", "        answer.refusal = change.apply(", "        kept_unlock(lock);\n        answer.refusal = change.apply(")],
    ),
    "reads before the lock": (
        ("system_calls", "kills"),
        [
            ("calls.c", "int mended, lock = kept_lock(file);", "int mended;\n    call_answer answer = read_agreeing(file, &copy, &mended);\n    int lock = kept_lock(file);"),
            ("calls.c", READ, READ.split("\n", 1)[1]),
        ],
    ),
    "does not sync the file": (("system_calls",), [("file.c", "                  fsync(descriptor) == 0;", "                  1;")]),
    "does not sync the folder": (("system_calls",), [("file.c", "int written = fsync(descriptor) == 0;", "int written = 1;")]),
    "does not commit what changes no byte": (
        ("system_calls",),
        [
            ("calls.c", "        answer.refusal = change.apply(", "        kept_copy before = copy;\n        answer.refusal = change.apply("),
            ("calls.c", COMMIT, "memcmp(&before, &copy, sizeof copy) && " + COMMIT),
        ],
    ),
    "passes over an error of write": (("system_calls", "kills", "full_disk"), [("file.c", "        if (written < 0)\n            return 0;", "        if (written < 0)\n            return 1;")]),
    "writes once, whatever was written": (("kills", "full_disk"), [("file.c", "        size -= (size_t)written;", "        size = 0;")]),
    "passes over a commit that failed": (("system_calls", "kills", "full_disk"), [("calls.c", "!kept_commit(file, &copy))\n            answer", "!kept_commit(file, &copy) && 0)\n            answer")]),
    "keeps the old index": (
        ("commands", "system_calls", "kills"),
        [("calls.c", "copy->index, sizeof copy->index, store->owner", "(uint8_t[TARNOKLEJ_INDEX_SIZE]){0}, sizeof copy->index, store->owner")],
    ),
    "replaces a file of another size": (("damage",), [("calls.c", "return answered(TARNOKLEJ_TABLE);", "memset(copy, 0, sizeof *copy);\n        return answered(TARNOKLEJ_DONE);")]),
    "does not mend the index": (("damage",), [("calls.c", "    if (*mended) {", "    if (*mended && 0) {")]),
    "finds without asking whether the index agrees": (
        ("damage",),
        [("calls.c", "        return answered(tarnoklej_index_agrees(copy->table, sizeof copy->table, copy->index, sizeof copy->index));", "        return answered(TARNOKLEJ_DONE);")],
    ),
    "leaves the new file behind": (("system_calls", "full_disk"), [("file.c", "        unlink(file->fresh);\n", "")]),
    "makes a file of other rights": (("commands",), [("file.c", "keep_rights(file, descriptor) && ", "")]),
    "changes a message of the other owner": (("kills",), [("calls.c", "key->owner, key->sin", "(uint8_t)(3 - key->owner), key->sin")]),
}

# Parts that are not run where these are set.
LEFT_OUT = {"full_disk": "TARNOKLEJ_SKIP_FULL_DISK", "system_calls": "TARNOKLEJ_WITHOUT_STRACE"}


def build(folder, source, include, library, edits):
    """Builds a host with edits, each of which must meet its text once."""
    texts = {name: open(os.path.join(source, name)).read() for name in os.listdir(source) if name.endswith((".c", ".h"))}
    for name, old, new in edits:
        if texts[name].count(old) != 1:
            sys.exit(f"wrong_hosts: {name} has this text {texts[name].count(old)} times: {old}")
        texts[name] = texts[name].replace(old, new)
    for name, text in texts.items():
        with open(os.path.join(folder, name), "w") as file:
            file.write(text)
    sources = [os.path.join(folder, name) for name in texts if name.endswith(".c")]
    host = os.path.join(folder, "host")
    subprocess.run(["gcc", "-std=gnu11", "-w", f"-I{include}", *sources, library, "-o", host], check=True)
    return host


def noticed(host, part):
    """The words with which a part notices a host, or None."""
    test = os.path.join(os.path.dirname(os.path.abspath(__file__)), "run.py")
    ran = subprocess.run([sys.executable, test, host, "--part", part], capture_output=True, text=True)
    return ran.stderr.strip().splitlines()[-1] if ran.returncode == 1 else None


def main():
    if len(sys.argv) != 4:
        print(__doc__, file=sys.stderr)
        return 2
    left_out = {part for part, variable in LEFT_OUT.items() if os.environ.get(variable) == "1"}
    tried = 0
    for name, (parts, edits) in MISTAKES.items():
        with tempfile.TemporaryDirectory() as folder:
            host = build(folder, *sys.argv[1:], edits)
            for part in parts:
                if part in left_out:
                    continue
                words = noticed(host, part)
                if words is None:
                    print(f"wrong_hosts: {part} does not notice a host that {name}", file=sys.stderr)
                    return 1
                tried += 1
                if os.environ.get("TARNOKLEJ_WORDS") == "1":
                    print(f"{name} | {part} | {words}")
    print(f"host: {len(MISTAKES)} wrong hosts are noticed, {tried} times by the parts that must")
    return 0


if __name__ == "__main__":
    sys.exit(main())
