#include "replay.h"
#include "buffers.h"
#include "calls.h"

enum {
#define PLACE_OF(name, refusals) CALL_##name,
    CALLS(PLACE_OF) CALL_COUNT
};

static const struct { const char *name; uint32_t refusals; } calls[] = {
#define LISTED(name, refusals) { "tarnoklej_" #name, refusals },
    CALLS(LISTED)
};

/* One input of a call. A switch, since an engine of WebAssembly that has memories of 64 bits may have no tables of functions of
 * 64 bits.
 */
static void replay_one(size_t call)
{
    switch (call) {
#define CASE(name, refusals) case CALL_##name: replay_##name(); break;
        CALLS(CASE)
    }
}

static char line[700];
static size_t line_length;

static void put(const char *text)
{
    for (; *text != '\0' && line_length < sizeof line; text++)
        line[line_length++] = *text;
}

static void put_number(uint64_t number, unsigned base, unsigned least_digits)
{
    char digits[65];
    unsigned at = sizeof digits - 1;
    digits[at] = '\0';
    for (; number > 0 || least_digits > 0; number /= base, least_digits -= least_digits > 0)
        digits[--at] = "0123456789abcdef"[number % base];
    put(digits + at);
}

static void end_line(void)
{
    print_line(line, line_length);
    line_length = 0;
}

/* Puts how often each refusal was met, and gives whether these are the ones that the header lists. */
static int put_refusals(uint32_t listed_refusals, uint64_t count)
{
    int right = 1;
    for (unsigned n = 0; n < 256; n++) {
        int listed = n == 0 || (n <= MOST_REFUSAL && (listed_refusals >> n & 1) != 0);
        uint64_t met = times_met(n);
        if (met == 0 && !(listed && count >= ENOUGH))
            continue;
        put(" "), put_number(n, 10, 1), put(":"), put_number(met, 10, 1);
        if (met > 0 && !listed)
            put(" (not listed)"), right = 0;
        if (met == 0)
            put(" (not met)"), right = 0;
    }
    return right;
}

/* A call's inputs depend on the seed and its name alone, so that they stay when another call is added. */
static uint64_t start_of(uint64_t seed, const char *name)
{
    uint64_t start = seed;
    for (; *name != '\0'; name++)
        start = (start ^ (uint8_t)*name) * 0x100000001B3u;
    return start;
}

/* Replays one call and prints its line; gives whether all is right. */
static int replay_call(size_t call, uint64_t seed, uint64_t count)
{
    start_random(start_of(seed, calls[call].name));
    start_sums();
    start_table();
    fill_buffers();
    for (uint64_t i = 0; i < count; i++) {
        move_buffers();
        replay_one(call);
    }
    put(calls[call].name), put(" inputs "), put_number(count, 10, 1), put(" refusals");
    int right = put_refusals(calls[call].refusals, count);
    put(" sum "), put_number(current_sum(), 16, 16);
    if (is_impossible())
        put(" a sound row was not written"), right = 0;
    end_line();
    return right;
}

static int replay_null_pointers(void)
{
    empty_result r = replay_empty();
    put("null pointers, choices of empty buffers "), put_number(r.calls, 10, 1), put(" different "), put_number(r.different, 10, 1);
    put(" sum "), put_number(r.sum, 16, 16);
    end_line();
    return r.different == 0;
}

int replay_all(uint64_t seed, uint64_t count)
{
    int right = 1;
    for (size_t call = 0; call < CALL_COUNT; call++)
        right &= replay_call(call, seed, count);
    right &= replay_null_pointers();
    return right ? 0 : 1;
}
