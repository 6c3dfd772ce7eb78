/* Frames with a CRC by a table of 256 entries, one for each value of a byte, as GNSS decoders have it. */
#include <string.h>
#include "baseline.h"

/* The polynomial of CRC-24Q. */
enum { POLYNOMIAL = 0x1864cfb };

/* The CRC of each byte. */
static uint32_t table[256];

/* Fills the table before the program begins. */
static __attribute__((constructor)) void fill_table(void)
{
    for (uint32_t byte = 0; byte < 256; byte++) {
        uint32_t crc = byte << 16;
        for (int bit = 0; bit < 8; bit++)
            crc = crc << 1 ^ (crc & 0x800000 ? POLYNOMIAL : 0);
        table[byte] = crc & 0xffffff;
    }
}

/* The CRC-24Q of bytes. */
static uint32_t crc24q(const uint8_t *bytes, size_t count)
{
    uint32_t crc = 0;
    for (size_t i = 0; i < count; i++)
        crc = (crc << 8 & 0xffffff) ^ table[crc >> 16 ^ bytes[i]];
    return crc;
}

/* Writes the frame of a message. */
static tarnoklej_written write_frame(const uint8_t *message, size_t length, uint8_t *out, size_t room)
{
    tarnoklej_written written = {TARNOKLEJ_LENGTH, 0};
    if (length > TARNOKLEJ_MOST_FRAMED)
        return written;
    size_t body = TARNOKLEJ_FRAME_HEAD + length;
    written.refusal = TARNOKLEJ_ROOM;
    if (room < body + TARNOKLEJ_FRAME_TAIL)
        return written;
    out[0] = 0xd3;
    out[1] = (uint8_t)(length >> 8);
    out[2] = (uint8_t)length;
    memcpy(out + TARNOKLEJ_FRAME_HEAD, message, length);
    uint32_t crc = crc24q(out, body);
    out[body] = (uint8_t)(crc >> 16);
    out[body + 1] = (uint8_t)(crc >> 8);
    out[body + 2] = (uint8_t)crc;
    written.refusal = TARNOKLEJ_DONE;
    written.length = body + TARNOKLEJ_FRAME_TAIL;
    return written;
}

/* Finds the first frame at or after a place. */
static tarnoklej_frame find_frame(const uint8_t *bytes, size_t size, size_t from)
{
    for (size_t at = from; at < size; at++) {
        if (bytes[at] != 0xd3 || (size - at > 1 && bytes[at + 1] > 3))
            continue;
        if (size - at < TARNOKLEJ_FRAME_HEAD)
            return (tarnoklej_frame){TARNOKLEJ_NEED, at, 0};
        size_t length = (size_t)bytes[at + 1] << 8 | bytes[at + 2];
        size_t body = TARNOKLEJ_FRAME_HEAD + length;
        if (size - at < body + TARNOKLEJ_FRAME_TAIL)
            return (tarnoklej_frame){TARNOKLEJ_NEED, at, 0};
        const uint8_t *tail = bytes + at + body;
        if (crc24q(bytes + at, body) == ((uint32_t)tail[0] << 16 | (uint32_t)tail[1] << 8 | tail[2]))
            return (tarnoklej_frame){TARNOKLEJ_DONE, at, length};
    }
    return (tarnoklej_frame){TARNOKLEJ_NOFRAME, 0, 0};
}

const baseline TABLE_OF_256 = {.name = "CRC by table of 256", .find_frame = find_frame, .write_frame = write_frame};
