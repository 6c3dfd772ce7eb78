/* The calls on frames: writing one, and finding one, all of a stream, or none in the worst stream. */
#include <string.h>
#include "call.h"

/* The messages that are gone through in turn, and the bytes of the frame of the longest. */
enum { MESSAGES = 32, LONGEST = TARNOKLEJ_FRAME_HEAD + TARNOKLEJ_MOST_FRAMED + TARNOKLEJ_FRAME_TAIL };
/* The bytes of a short frame and of its message, as those of a 1005. */
enum { SHORT = 25, SHORT_MESSAGE = SHORT - TARNOKLEJ_FRAME_HEAD - TARNOKLEJ_FRAME_TAIL };
/* The bytes of a stream of frames, whose messages have some bytes to many. */
enum { STREAM = 1000000, FEWEST = 20, MOST = 400 };
/* The places of the worst stream at which a search goes on, and the bytes that the candidate at each calls for. */
enum { PLACES = 8192, CALLED_FOR = TARNOKLEJ_FRAME_HEAD + 0x3d3 + TARNOKLEJ_FRAME_TAIL };

static uint8_t messages[MESSAGES][TARNOKLEJ_MOST_FRAMED];
static uint8_t short_frames[MESSAGES][SHORT];
static uint8_t stream[STREAM];
static size_t stream_frames;
/* D3 03 over and over, where every other place calls for 985 bytes of a wrong CRC. */
static uint8_t worst[PLACES + CALLED_FOR - 1];

/* Fills bytes with random ones. */
static void fill(uint8_t *bytes, size_t count)
{
    for (size_t i = 0; i < count; i++)
        bytes[i] = (uint8_t)within(0, 255);
}

/* Fills the stream with frames and, where no other fits, with zeros. */
static void fill_stream(void)
{
    uint8_t message[MOST];
    size_t at = 0;
    for (stream_frames = 0; at + LONGEST <= STREAM; stream_frames++) {
        size_t length = (size_t)within(FEWEST, MOST);
        fill(message, length);
        at += tarnoklej_write_frame(message, length, stream + at, STREAM - at).length;
    }
    memset(stream + at, 0, STREAM - at);
}

void make_frames(void)
{
    for (int i = 0; i < MESSAGES; i++) {
        fill(messages[i], sizeof messages[i]);
        if (tarnoklej_write_frame(messages[i], SHORT_MESSAGE, short_frames[i], SHORT).length != SHORT)
            stop("a message was refused", "frames");
    }
    fill_stream();
    for (size_t i = 0; i < sizeof worst; i++)
        worst[i] = i % 2 == 0 ? 0xd3 : 0x03;
}

static uint64_t run_write(const baseline *by, size_t turn, size_t size)
{
    uint8_t out[LONGEST];
    tarnoklej_written written = by->write_frame(messages[turn % MESSAGES], size, out, sizeof out);
    return written.refusal + written.length + out[written.length - 1];
}

static int same_write(const baseline *by, size_t turn, size_t size)
{
    uint8_t one[LONGEST] = {0}, other[LONGEST] = {0};
    tarnoklej_written written = LIBRARY.write_frame(messages[turn % MESSAGES], size, one, sizeof one);
    tarnoklej_written again = by->write_frame(messages[turn % MESSAGES], size, other, sizeof other);
    return written.refusal == again.refusal && written.length == again.length && memcmp(one, other, sizeof one) == 0;
}

/* Whether two answers of a search are the same. */
static int same_frame(tarnoklej_frame one, tarnoklej_frame other)
{
    return one.refusal == other.refusal && one.at == other.at && one.length == other.length;
}

static uint64_t run_short(const baseline *by, size_t turn, size_t size)
{
    tarnoklej_frame frame = by->find_frame(short_frames[turn % MESSAGES], size, 0);
    return frame.refusal + frame.at + frame.length;
}

static int same_short(const baseline *by, size_t turn, size_t size)
{
    const uint8_t *bytes = short_frames[turn % MESSAGES];
    return same_frame(LIBRARY.find_frame(bytes, size, 0), by->find_frame(bytes, size, 0));
}

/* The place behind a frame. */
static size_t end_of(tarnoklej_frame frame)
{
    return frame.at + TARNOKLEJ_FRAME_HEAD + frame.length + TARNOKLEJ_FRAME_TAIL;
}

static uint64_t run_stream(const baseline *by, size_t turn, size_t size)
{
    (void)turn;
    uint64_t lengths = 0;
    tarnoklej_frame frame = by->find_frame(stream, size, 0);
    for (; frame.refusal == TARNOKLEJ_DONE; frame = by->find_frame(stream, size, end_of(frame)))
        lengths += frame.length;
    return lengths;
}

/* Both must find all frames that were written. */
static int same_stream(const baseline *by, size_t turn, size_t size)
{
    (void)turn;
    size_t found = 0;
    tarnoklej_frame one = LIBRARY.find_frame(stream, size, 0), other = by->find_frame(stream, size, 0);
    while (same_frame(one, other) && one.refusal == TARNOKLEJ_DONE) {
        found++;
        other = by->find_frame(stream, size, end_of(one));
        one = LIBRARY.find_frame(stream, size, end_of(one));
    }
    return same_frame(one, other) && found == stream_frames;
}

static uint64_t run_worst(const baseline *by, size_t turn, size_t size)
{
    (void)turn;
    return by->find_frame(worst, size, 0).at;
}

/* Both must search all places before the first candidate that is not whole. */
static int same_worst(const baseline *by, size_t turn, size_t size)
{
    (void)turn;
    tarnoklej_frame expected = {TARNOKLEJ_NEED, PLACES, 0};
    return same_frame(LIBRARY.find_frame(worst, size, 0), expected) &&
           same_frame(by->find_frame(worst, size, 0), expected);
}

const call FRAME_CALLS[FRAME_CALLS_COUNT] = {
    {"write_frame, a message of 1,023 bytes", run_write, same_write, TARNOKLEJ_MOST_FRAMED, 1, MESSAGES, ON_FRAMES},
    {"write_frame, a frame of 25 bytes", run_write, same_write, SHORT_MESSAGE, 1, MESSAGES, ON_FRAMES},
    {"find_frame, a frame of 25 bytes", run_short, same_short, SHORT, 1, MESSAGES, ON_FRAMES},
    {"find_frame, all frames of a stream of 1 MB", run_stream, same_stream, STREAM, 1, 1, ON_FRAMES},
    {"find_frame, each byte of D3 03 over and over", run_worst, same_worst, sizeof worst, PLACES, 1, ON_FRAMES},
};
