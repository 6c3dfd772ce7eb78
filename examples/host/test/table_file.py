"""Reads a file of a table and its index, from document 02's words and not by the library."""
import messages

SLOTS, SLOT_SIZE, TABLE_SIZE, INDEX_SIZE, OWNER_SLOTS = 32, 132, 4224, 128, 20
FILE_SIZE = TABLE_SIZE + INDEX_SIZE


class Failure(Exception):
    """Something that a host must not do."""


def read_bytes(path):
    with open(path, "rb") as file:
        return file.read()


def read_slot(slot):
    """The owner, key and message of a slot, or None where it is free."""
    if slot == bytes(SLOT_SIZE):
        return None
    owner, length = slot[0], slot[1]
    message = slot[2 : 2 + length]
    key = messages.key_of(message)
    if owner not in (1, 2) or key is None or slot[2 + length :] != bytes(SLOT_SIZE - 2 - length):
        raise Failure(f"a slot is not well formed: {slot.hex()}")
    return (owner, *key), message


def read_slots(table):
    """The messages by (owner, SIN, group), and the slot of each."""
    held, places = {}, {}
    for place in range(SLOTS):
        used = read_slot(table[place * SLOT_SIZE : (place + 1) * SLOT_SIZE])
        if used is None:
            continue
        key, message = used
        if key in held:
            raise Failure(f"a key stands twice: {key}")
        held[key], places[key] = message, place
    for owner in (1, 2):
        if sum(key[0] == owner for key in held) > OWNER_SLOTS:
            raise Failure(f"owner {owner} holds more than {OWNER_SLOTS} slots")
    return held, places


def index_of(places):
    """The one index that agrees: entries sorted by owner, SIN, group, and zeros behind."""
    entries = b"".join(bytes((*key, places[key])) for key in sorted(places))
    return entries + bytes(INDEX_SIZE - len(entries))


def read(path):
    """The messages of a sound file by (owner, SIN, group)."""
    content = read_bytes(path)
    if len(content) != FILE_SIZE:
        raise Failure(f"the file has {len(content)} bytes")
    held, places = read_slots(content[:TABLE_SIZE])
    if content[TABLE_SIZE:] != index_of(places):
        raise Failure("the index does not agree with the table")
    return held


def make(held):
    """The bytes of a sound file that holds these messages."""
    slots, places = [], {}
    for key, message in held.items():
        places[key] = len(slots)
        slots.append((bytes((key[0], len(message))) + message).ljust(SLOT_SIZE, b"\0"))
    return b"".join(slots).ljust(TABLE_SIZE, b"\0") + index_of(places)
