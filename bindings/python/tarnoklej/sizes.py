"""The sizes of include/tarnoklej.h."""

#: Bytes of a table; 4,224 zeros are an empty table.
TABLE_SIZE = 4224
#: Messages that a table holds.
SLOTS = 32
#: Slots that an owner holds at most, so that 12 are always there for the other.
OWNER_SLOTS = 20
#: Bytes of a slot: owner, length, 127 message bytes, three zeros.
SLOT_SIZE = 132
#: Bytes of an index; 128 zeros are the index of an empty table.
INDEX_SIZE = 128
#: Entries of an index that a find looks at, at most.
MOST_PROBES = 6
#: Bytes of the longest message, a 1022 of two names of 31 characters.
MOST_BYTES = 127
#: Fields of the longest row, of the same message.
MOST_FIELDS = 90
#: Bytes of a frame before its message: D3, six zero bits, a ten-bit length.
FRAME_HEAD = 3
#: Bytes of a frame behind its message: the CRC-24Q of all before.
FRAME_TAIL = 3
#: Bytes of the longest message that a frame holds.
MOST_FRAMED = 1023
#: Points of the longest report.
MOST_POINTS = 10000
#: Places of the longest row of shifts.
MOST_PLACES = 4096
#: Bytes of a file of sample answers before its message.
SAMPLES_HEAD = 3
#: Bytes of a point in such a file.
SAMPLE_SIZE = 28
#: Points of such a file.
MOST_SAMPLES = 1000
