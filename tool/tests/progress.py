"""progress.py COMMAND FILE: decode shows its progress where standard error is a terminal and standard output is not."""
import os
import pty
import subprocess
import sys


def shown(command, name):
    """What decode writes to a terminal as its standard error while it reads a file."""
    terminal, end = pty.openpty()
    with open(os.devnull, "wb") as nothing:
        child = subprocess.Popen([command, "decode", name], stdin=subprocess.DEVNULL, stdout=nothing, stderr=end)
    os.close(end)
    text = b""
    while True:
        try:
            more = os.read(terminal, 65536)
        except OSError:
            break
        if not more:
            break
        text += more
    child.wait()
    return text.decode()


def main():
    text = shown(*sys.argv[1:])
    if "\rtarnoklej: " not in text or " MB, " not in text:
        sys.exit(f"progress: nothing is shown: {text!r}")
    print("tool: a long file shows its progress on a terminal")


main()
