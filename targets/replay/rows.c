#include "rows.h"

const field *row_fields[ROW_ROOM];
size_t row_count;
static size_t row_bits;

static void append(const field *f, int64_t value, int has_value)
{
    row_fields[row_count] = f;
    values[row_count] = value;
    present[row_count] = (uint8_t)has_value;
    row_count++;
    row_bits += f->width;
}

/* Appends a value of the field's range, one in eight none where it can be so. */
static void append_any(const field *f)
{
    int64_t least = f->is_signed ? -f->greatest : 0;
    switch (below(8)) {
    case 0: append(f, least, 1); break;
    case 1: append(f, f->greatest, 1); break;
    case 2: append(f, f->is_signed ? 0 : 1, !f->is_signed || one_in(2)); break;
    default: append(f, within(least, f->greatest), 1);
    }
}

static void append_name(void)
{
    uint64_t length = one_in(4) ? 31 * below(2) : below(32);
    append(&counter_field, (int64_t)length, 1);
    for (; length > 0; length--)
        append(&character_field, (int64_t)below(256), 1);
}

void make_row(int number)
{
    field_list list = fields_of(number);
    row_count = row_bits = 0;
    append(&number_field, number, 1);
    if (number <= 1022) {
        append_name();
        append_name();
    }
    for (size_t i = 0; i < list.count; i++)
        append_any(&list.fields[i]);
}

void make_any_row(void) { make_row(1021 + (int)below(7)); }

void set_value(size_t at, int64_t value) { values[at] = value, present[at] = 1; }
void set_none(size_t at) { values[at] = 0, present[at] = 0; }
int64_t any_signed(const field *f) { return within(-f->greatest, f->greatest); }

size_t row_bytes(void) { return (row_bits + 7) / 8; }

size_t write_row(void)
{
    tarnoklej_written w = tarnoklej_write_fields(values, row_count, present, row_count, message, MESSAGE_ROOM);
    if (w.refusal != TARNOKLEJ_DONE || w.length != row_bytes())
        note_impossible();
    return row_bytes();
}

void damage_row(size_t *values_count, size_t *present_count)
{
    static const int64_t ends[] = { INT64_MIN, INT64_MAX, -1, 1, 4096 };
    size_t at = below(row_count);
    const field *f = row_fields[at];
    switch (below(10)) {
    case 0: set_value(at, f->greatest + 1); break;
    case 1: set_value(at, -f->greatest - 1); break;
    case 2: set_value(at, ends[below(5)]); break;
    case 3: set_value(at, (int64_t)bits()); break;
    case 4: present[at] = (uint8_t)bits(); break;
    case 5: set_none(at); break;
    case 6: values[at] = 1 + (int64_t)below(9), present[at] = 0; break;
    case 7: *values_count = make_room(row_count, ROW_ROOM); break;
    case 8: *present_count = make_room(row_count, ROW_ROOM); break;
    default: *values_count = *present_count = make_room(row_count, ROW_ROOM);
    }
}

static void set_bits(uint8_t *bytes, size_t at, unsigned width, uint64_t value)
{
    for (; width > 0; width--, at++) {
        uint8_t mask = (uint8_t)(0x80 >> at % 8);
        bytes[at / 8] = (uint8_t)((bytes[at / 8] & ~mask) | (value >> (width - 1) & 1 ? mask : 0));
    }
}

/* Sets a field of the message to what fits its width but not its range, where the row has such a field. */
static void leave_range(void)
{
    size_t first = below(row_count);
    for (size_t n = 0; n < row_count; n++) {
        size_t chosen = (first + n) % row_count, at = 0;
        const field *f = row_fields[chosen];
        int64_t widest = ((int64_t)1 << (f->width - f->is_signed)) - 1;
        if (f->greatest == widest)
            continue;
        for (size_t i = 0; i < chosen; i++)
            at += row_fields[i]->width;
        int64_t value = within(f->greatest + 1, widest);
        set_bits(message, at, f->width, (uint64_t)(f->is_signed && one_in(2) ? -value : value));
        return;
    }
}

/* Sets the message number to one that is not known, or to any. */
static void leave_numbers(void)
{
    static const uint16_t near[] = { 1020, 1028, 0, 4095, 509, 2045, 253, 255 };
    unsigned number = one_in(2) ? near[below(8)] : (unsigned)below(4096);
    message[0] = (uint8_t)(number >> 4);
    message[1] = (uint8_t)(number << 4 | (message[1] & 15));
}

static size_t remove_byte(size_t length, size_t at)
{
    for (; at + 1 < length; at++)
        message[at] = message[at + 1];
    return length - 1;
}

static size_t repeat_byte(size_t length, size_t at)
{
    for (size_t i = length; i > at; i--)
        message[i] = message[i - 1];
    return length + 1;
}

static size_t append_bytes(size_t length)
{
    size_t more = 1 + below(140);
    fill(message + length, more);
    return length + more;
}

static void fill_some(size_t length, size_t at)
{
    size_t some = 1 + below(8);
    fill(message + at, some < length - at ? some : length - at);
}

static size_t fill_anew(void)
{
    size_t length = below(300);
    fill(message, length);
    return length;
}

size_t damage_message(size_t length)
{
    size_t at = below(length);
    switch (below(12)) {
    case 0: message[at] ^= (uint8_t)(1 << below(8)); return length;
    case 1: fill_some(length, at); return length;
    case 2: return remove_byte(length, at);
    case 3: return repeat_byte(length, at);
    case 4: return at;
    case 5: return append_bytes(length);
    case 6: message[length - 1] |= (uint8_t)(1 << below(4)); return length;
    case 7: leave_range(); return length;
    case 8: fill(message + 2, length - 2); return length;
    case 9: return fill_anew();
    case 10: leave_numbers(); return length;
    default: return below(2);
    }
}

size_t make_message(void)
{
    make_any_row();
    size_t length = write_row();
    return one_in(3) ? length : damage_message(length);
}
