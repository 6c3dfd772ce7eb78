"""The host's commands: answers, words, and exit statuses."""
import os
import subprocess

import messages
import table_file
from table_file import Failure

DONE, REFUSED, USAGE, FAILED = 0, 1, 2, 3


def ask(host, *words):
    """Runs a command and gives its exit status, its output and its words; a status other than 0 must come with words."""
    ran = subprocess.run([host, *words], capture_output=True)
    if (ran.returncode != DONE) and not ran.stderr:
        raise Failure(f"{' '.join(words)}: exit status {ran.returncode} without a word")
    return ran.returncode, ran.stdout, ran.stderr.decode()


def expect(host, status, *words, output=None):
    found, text, said = ask(host, *words)
    if found != status or (output is not None and text != output):
        raise Failure(f"{' '.join(words)}: exit status {found}, not {status}, or other output: {text!r} {said.strip()}")
    return said


def check_lines(host, path):
    """Lines that are no calls are answered bad, each once, and the next call is answered as it must be."""
    message = messages.make(3, 2, 5).hex()
    lines = [
        (f"store {message}\n", "0"),
        ("find 3 2\n", f"0 {message}"),
        ("\n", "bad"),
        ("other 3 2\n", "bad"),
        ("find 3\n", "bad"),
        ("find 3 2 1\n", "bad"),
        ("find 3 256\n", "bad"),
        ("find -3 2\n", "bad"),
        ("find 3 9\n", "17"),
        (f"store {message.upper()[:-1]}A\n", "bad"),
        (f"store {message}0\n", "bad"),
        ("store 3ff\n", "bad"),
        ("store 3f\n", "1"),
        ("store " + "0" * 256 + "\n", "2"),
        ("store " + "0" * 258 + "\n", "bad"),
        ("x" * 9000 + " remove 3 2\n", "bad"),
        ("find\0 3 2\n", "bad"),
        ("remove 3 2\0\n", "bad"),
        ("find 3 2\n", f"0 {message}"),
        ("remove 3 2\n", "0"),
        ("find 3 2\n", "17"),
        (f"store {message}", "bad"),
    ]
    ran = subprocess.run([host, "calls", path, "2"], input="".join(line for line, _ in lines).encode(), capture_output=True)
    answers = ran.stdout.decode().splitlines()
    if ran.returncode != DONE or answers != [answer for _, answer in lines]:
        raise Failure(f"calls are answered otherwise: {answers}")


def run(host, folder):
    path, file = os.path.join(folder, "commands"), os.path.join(folder, "message")
    message = messages.make(9, 1, 77)
    with open(file, "wb") as stream:
        stream.write(message)
    key = ("9", "1")
    expect(host, DONE, "--help")
    for words in ((), ("store",), ("store", path, "1"), ("find", path, "1", "9"), ("find", path, "1", "9", "256"), ("other", path), ("calls", path)):
        expect(host, USAGE, *words)
    for words in (("store", "1", file), ("find", "1", *key), ("remove", "1", *key), ("list", "1"), ("check",), ("mend",)):
        expect(host, USAGE, words[0], path, *words[1:])
    expect(host, DONE, "new", path)
    if table_file.read_bytes(path) != bytes(table_file.FILE_SIZE):
        raise Failure("new makes another file than one of zeros")
    expect(host, USAGE, "new", path)
    expect(host, USAGE, "store", path, "1", os.path.join(folder, "nothing"))
    expect(host, DONE, "store", path, "1", file)
    if table_file.read(path) != {(1, 9, 1): message}:
        raise Failure("store does not store")
    expect(host, DONE, "find", path, "1", *key, output=message)
    expect(host, REFUSED, "find", path, "2", *key, output=b"")
    expect(host, REFUSED, "remove", path, "2", *key)
    expect(host, REFUSED, "store", path, "3", file)
    expect(host, REFUSED, "list", path, "0")
    expect(host, DONE, "list", path, "2", output=b"")
    expect(host, DONE, "list", path, "1", output=b"sin 9 group 1 message 1023 of 73 bytes\n")
    expect(host, DONE, "check", path)
    check_lines(host, path)
    with open(file, "wb") as stream:
        stream.write(message + b"\0")
    expect(host, REFUSED, "store", path, "1", file)
    link = os.path.join(folder, "link")
    os.symlink(path, link)
    expect(host, DONE, "remove", link, "1", *key)
    if table_file.read(path) != {} or not os.path.islink(link):
        raise Failure("a link to a table is not followed")
    os.chmod(path, 0o640)
    with open(file, "wb") as stream:
        stream.write(message)
    expect(host, DONE, "store", path, "2", file)
    if os.stat(path).st_mode & 0o777 != 0o640:
        raise Failure("a change changes the file's rights")
    print("host: its commands give the answers, exit statuses and words that they must")
