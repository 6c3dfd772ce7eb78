"""live.py COMMAND RECORDING: gives the frames of a recording to `decode --json` one after another through a pipe.

Each frame is sent in two parts, and its object must arrive although nothing more is sent.
"""
import json
import os
import select
import subprocess
import sys

# Seconds after which an answer that did not arrive is missed.
PATIENCE = 60


def lines_of(command, recording):
    whole = subprocess.run([command, "decode", "--json", recording], capture_output=True, check=False)
    return whole.stdout.splitlines()


class Reader:
    """The lines of a pipe, with a time limit."""

    def __init__(self, pipe):
        self.number, self.rest = pipe.fileno(), b""

    def line(self):
        while b"\n" not in self.rest:
            if not select.select([self.number], [], [], PATIENCE)[0]:
                return None
            more = os.read(self.number, 65536)
            if not more:
                return None
            self.rest += more
        line, self.rest = self.rest.split(b"\n", 1)
        return line


def main():
    command, name = sys.argv[1:]
    with open(name, "rb") as file:
        stream = file.read()
    # The frames alone, so that each is due with its own last byte.
    frames = []
    for line in lines_of(command, name):
        one = json.loads(line)
        if one["kind"] not in ("outside", "end"):
            frames.append(stream[one["at"]:one["at"] + one["length"] + 6])
    with subprocess.Popen([command, "decode", "--json"], stdin=subprocess.PIPE, stdout=subprocess.PIPE, stderr=subprocess.DEVNULL) as child:
        reader = Reader(child.stdout)
        place = 0
        for frame in frames:
            for part in (frame[:1], frame[1:]):
                os.write(child.stdin.fileno(), part)
            line = reader.line()
            if line is None or json.loads(line)["at"] != place:
                child.kill()
                sys.exit(f"live: the frame at {place} is not answered at once: {line}")
            place += len(frame)
        child.stdin.close()
        end = json.loads(reader.line())
    if end["kind"] != "end" or end["frames"] != len(frames):
        sys.exit(f"live: {end} after {len(frames)} frames")
    print(f"tool: {len(frames)} frames of a live stream are answered each before the next is sent")


main()
