"""Messages of each group that carry a serial number, packed by the widths of docs/FIELDS.md."""

# The group of a message's number.
GROUPS = {1021: 0, 1023: 1, 1025: 2}


def pack(fields):
    """The bytes of (width, number) pairs, the most significant bit first, with zero fill bits behind."""
    bits = "".join(format(number, f"0{width}b") for width, number in fields)
    bits += "0" * (-len(bits) % 8)
    return int(bits, 2).to_bytes(len(bits) // 8, "big")


def zeros(*widths):
    return [(width, 0) for width in widths]


def helmert(sin, serial):
    """A 1021: the first four characters of its source name are the serial number; names differ in length."""
    name = serial.to_bytes(4, "big") + b"x" * (serial % 6)
    return pack(
        [(12, 1021), (5, len(name))] + [(8, character) for character in name] + [(5, 0), (8, sin)]
        + zeros(10, 5, 4, 2, 19, 20, 14, 14, 23, 23, 23, 32, 32, 32, 25, 24, 25, 24, 25, 3, 3)
    )


def grid(sin, serial):
    """A 1023: its spacings and its day are the serial number."""
    return pack(
        [(12, 1023), (8, sin), (1, 1), (1, 1), (21, 0), (22, 0), (12, serial >> 28 & 0xFFF), (12, serial >> 16 & 0xFFF)]
        + zeros(8, 8, 15) + zeros(9, 9, 9) * 16 + zeros(2, 2, 3, 3) + [(16, serial & 0xFFFF)]
    )


def projection(sin, serial):
    """A 1025: its false easting is the serial number."""
    return pack([(12, 1025), (8, sin), (6, 1)] + zeros(34, 35, 30) + [(36, serial), (35, 0)])


MAKERS = (helmert, grid, projection)


def make(sin, group, serial):
    return MAKERS[group](sin, serial)


def take(message, offset, width):
    """The number of a field."""
    bits = int.from_bytes(message, "big")
    return bits >> (8 * len(message) - offset - width) & ((1 << width) - 1)


def key_of(message):
    """The system identification number and the group of a message, or None where it is not one that is made here."""
    group = GROUPS.get(take(message, 0, 12)) if len(message) >= 25 else None
    if group is None:
        return None
    if group == 0:
        sin, serial = take(message, 22 + 8 * take(message, 12, 5), 8), take(message, 17, 32)
    elif group == 1:
        sin, serial = take(message, 12, 8), take(message, 65, 24) << 16 | take(message, 562, 16)
    else:
        sin, serial = take(message, 12, 8), take(message, 125, 36)
    return (sin, group) if make(sin, group, serial) == message else None
