"""What the page must show, by the second program and by the words of the papers; nothing of the page is used here."""
import json
import subprocess
from decimal import Decimal

from browser import REPOSITORY

SECOND = REPOSITORY / "second/target/release/second"
TABLES = [str(REPOSITORY / "tool/fields.csv"), str(REPOSITORY / "tool/messages.csv")]
HEAD, TAIL = 3, 3
GROUPS = {"Transformation": (1021, 1022), "Grid": (1023, 1024), "Projection": (1025, 1026, 1027)}


def second(words, content=b""):
    """The second program's standard output, or its standard error where that is empty."""
    answer = subprocess.run([str(SECOND), *words], input=content, capture_output=True, check=False, cwd=REPOSITORY)
    return (answer.stdout or answer.stderr).decode()


def decoded(content):
    """The objects of the second program's decode, values as exact decimals."""
    lines = second(["decode", *TABLES, "--json"], content).splitlines()
    return [json.loads(line, parse_float=Decimal) for line in lines]


def recording():
    return (REPOSITORY / "services/recording.rtcm").read_bytes()


def frame_lines():
    """services/recording.expected, the words of each line, without its last one."""
    lines = (REPOSITORY / "services/recording.expected").read_text().splitlines()
    return [line.split() for line in lines[:-1]]


def crc24q(content):
    """The rest of a division by the polynomial 1864CFB, bit by bit."""
    rest = 0
    for byte in content:
        rest ^= byte << 16
        for _ in range(8):
            rest = (rest << 1) ^ (0x1864CFB if rest & 0x800000 else 0)
    return rest & 0xFFFFFF


def framed(message):
    start = bytes([0xD3, len(message) >> 8, len(message) & 255]) + message
    return start + crc24q(start).to_bytes(TAIL, "big")


def candidates(content, start, end):
    """The places from start to end at which D3 and six zero bits stand, each with the bytes of the frame that it calls for."""
    found = []
    for at in range(start, end):
        if content[at] != 0xD3 or (at + 1 < len(content) and content[at + 1] >> 2):
            continue
        head = content[at:at + HEAD]
        found.append((at, HEAD + int.from_bytes(head[1:], "big") + TAIL if len(head) == HEAD else None))
    return found


def outside_parts(content, start, end):
    """Why bytes between frames are in none: lists of kind, place and size."""
    parts, at = [], start
    while at < end:
        rest = candidates(content, at, end)
        first, called = rest[0] if rest else (end, None)
        if first > at:
            parts.append(["noise", at, first - at])
        if not rest:
            break
        fits = called is not None and first + called <= end
        stop = first + called if fits else rest[1][0] if len(rest) > 1 else end
        unfinished = called is None or first + called > len(content)
        parts.append(["not finished" if unfinished else "wrong CRC", first, stop - first])
        at = stop
    return parts


def sin_by_bits(message):
    """The system identification number in the bits of a message, or None where they are not there."""
    bits = "".join(f"{byte:08b}" for byte in message)
    at = 12
    if int(bits[:12] or "0", 2) <= 1022:
        for _ in range(2):
            counter = bits[at:at + 5]
            at += 5 + 8 * (int(counter, 2) if len(counter) == 5 else 0)
    sin = bits[at:at + 8]
    return int(sin, 2) if len(sin) == 8 else None
