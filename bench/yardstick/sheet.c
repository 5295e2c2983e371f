/* The yardstick's sheet of a section. The section is accepted first, so that nothing is checked
   here: each function puts the numbers of one structure and moves behind its bytes. */
#include "yardstick.h"
#include "parts.h"

#include <string.h>

/* Where the next byte is read and the next number goes. */
struct copy {
    const uint8_t *at;
    uint64_t *to;
};

static void put(struct copy *copy, uint64_t number)
{
    *copy->to++ = number;
}

static void bytes(struct copy *copy, size_t count)
{
    for (size_t i = 0; i < count; i++)
        copy->to[i] = copy->at[i];
    copy->at += count;
    copy->to += count;
}

static void number_32(struct copy *copy)
{
    put(copy, big_endian_32(copy->at));
    copy->at += 4;
}

/* A flag, six reserved bits and a time: break_duration(), and splice_time() with a time. */
static void flag_and_clock(struct copy *copy)
{
    put(copy, copy->at[0] >> 7);
    put(copy, copy->at[0] >> 1 & 0x3F);
    put(copy, clock_33(copy->at));
    copy->at += 5;
}

static void splice_time(struct copy *copy)
{
    if (copy->at[0] & 0x80) {
        flag_and_clock(copy);
        return;
    }
    put(copy, 0);
    bytes(copy, 1);
}

/* An event's id, its cancel indicator and seven reserved bits; whether it is not cancelled. */
static bool event(struct copy *copy)
{
    number_32(copy);
    uint8_t flags = *copy->at++;
    put(copy, flags >> 7);
    put(copy, flags & 0x7F);
    return !(flags & 0x80);
}

static void avails(struct copy *copy, bool duration)
{
    if (duration)
        flag_and_clock(copy);
    put(copy, big_endian_16(copy->at));
    copy->at += 2;
    bytes(copy, 2);
}

static void insert_components(struct copy *copy, bool immediate)
{
    unsigned count = copy->at[0];
    bytes(copy, 1);
    if (immediate) {
        bytes(copy, count);
        return;
    }
    while (count-- > 0) {
        bytes(copy, 1);
        splice_time(copy);
    }
}

static void splice_insert(struct copy *copy)
{
    if (!event(copy))
        return;
    uint8_t flags = *copy->at++;
    bool program = flags & 0x40, immediate = flags & 0x10;
    put(copy, flags >> 7);
    put(copy, flags >> 6 & 1);
    put(copy, flags >> 5 & 1);
    put(copy, flags >> 4 & 1);
    put(copy, flags & 0x0F);
    if (!program)
        insert_components(copy, immediate);
    else if (!immediate)
        splice_time(copy);
    avails(copy, flags & 0x20);
}

static void schedule_components(struct copy *copy)
{
    unsigned count = copy->at[0];
    bytes(copy, 1);
    while (count-- > 0) {
        bytes(copy, 1);
        number_32(copy);
    }
}

static void schedule_event(struct copy *copy)
{
    if (!event(copy))
        return;
    uint8_t flags = *copy->at++;
    put(copy, flags >> 7);
    put(copy, flags >> 6 & 1);
    put(copy, flags >> 5 & 1);
    put(copy, flags & 0x1F);
    if (flags & 0x40)
        number_32(copy);
    else
        schedule_components(copy);
    avails(copy, flags & 0x20);
}

static void splice_schedule(struct copy *copy)
{
    unsigned count = copy->at[0];
    bytes(copy, 1);
    while (count-- > 0)
        schedule_event(copy);
}

static void command(struct copy *copy, uint8_t type, size_t length)
{
    switch (type) {
    case 0x00:
    case 0x07:
        break;
    case 0x04:
        splice_schedule(copy);
        break;
    case 0x05:
        splice_insert(copy);
        break;
    case 0x06:
        splice_time(copy);
        break;
    case 0xFF:
        number_32(copy);
        bytes(copy, length - 4);
        break;
    default:
        bytes(copy, length);
    }
}

static void segmentation_flags(struct copy *copy, uint8_t flags)
{
    put(copy, flags >> 7);
    put(copy, flags >> 6 & 1);
    put(copy, flags >> 5 & 1);
    if (flags & 0x20) {
        put(copy, flags & 0x1F);
        return;
    }
    put(copy, flags >> 4 & 1);
    put(copy, flags >> 3 & 1);
    put(copy, flags >> 2 & 1);
    put(copy, flags & 3);
}

static void segmentation_components(struct copy *copy)
{
    unsigned count = copy->at[0];
    bytes(copy, 1);
    while (count-- > 0) {
        bytes(copy, 1);
        put(copy, copy->at[0] >> 1);
        put(copy, clock_33(copy->at));
        copy->at += 5;
    }
}

/* What is left behind the UPID is three bytes, or five with the sub-segments. */
static void segmentation(struct copy *copy, const uint8_t *end)
{
    if (!event(copy))
        return;
    uint8_t flags = *copy->at++;
    segmentation_flags(copy, flags);
    if (!(flags & 0x80))
        segmentation_components(copy);
    if (flags & 0x40) {
        put(copy, big_endian_40(copy->at));
        copy->at += 5;
    }
    bytes(copy, (size_t)(end - copy->at));
}

static void time_descriptor(struct copy *copy)
{
    const uint8_t *at = copy->at;
    put(copy, (uint64_t)big_endian_16(at) << 32 | big_endian_32(at + 2));
    put(copy, big_endian_32(at + 6));
    put(copy, big_endian_16(at + 10));
    copy->at += 12;
}

static void audio(struct copy *copy)
{
    uint8_t head = *copy->at++;
    put(copy, head >> 4);
    put(copy, head & 0x0F);
    for (unsigned count = head >> 4; count > 0; count--) {
        const uint8_t *at = copy->at;
        put(copy, at[0]);
        put(copy, big_endian_32(at) & 0xFFFFFF);
        put(copy, at[4] >> 5);
        put(copy, at[4] >> 1 & 0x0F);
        put(copy, at[4] & 1);
        copy->at += 5;
    }
}

/* The body of a descriptor of the standard's own. */
static void body(struct copy *copy, uint8_t tag, const uint8_t *end)
{
    switch (tag) {
    case 0:
        number_32(copy);
        break;
    case 1:
        bytes(copy, 1);
        put(copy, copy->at[0] >> 5);
        put(copy, copy->at[0] & 0x1F);
        copy->at++;
        bytes(copy, (size_t)(end - copy->at));
        break;
    case 2:
        segmentation(copy, end);
        break;
    case 3:
        time_descriptor(copy);
        break;
    case 4:
        audio(copy);
        break;
    default:
        bytes(copy, (size_t)(end - copy->at));
    }
}

static void descriptors(struct copy *copy, size_t length)
{
    const uint8_t *end = copy->at + length;
    while (copy->at != end) {
        const uint8_t *at = copy->at, *next = at + 2 + at[1];
        bytes(copy, 2);
        number_32(copy);
        if (big_endian_32(at + 2) == CUEI)
            body(copy, at[0], next);
        else
            bytes(copy, (size_t)(next - copy->at));
    }
}

/* Everything before the sealed bytes or splice_command_type. */
static void header(struct copy *copy)
{
    const uint8_t *at = copy->at;
    put(copy, at[0]);
    put(copy, at[1] >> 7);
    put(copy, at[1] >> 6 & 1);
    put(copy, at[1] >> 4 & 3);
    put(copy, at[3]);
    put(copy, at[4] >> 7);
    put(copy, at[4] >> 1 & 0x3F);
    put(copy, clock_33(at + 4));
    put(copy, at[9]);
    put(copy, big_endian_16(at + 10) >> 4);
    put(copy, big_endian_16(at + 11) & 0x0FFF);
    copy->at += 13;
}

/* The sheet of an accepted section: how many numbers. */
static size_t fill(const uint8_t *section, size_t len, uint64_t *out)
{
    struct copy copy = {section, out};
    header(&copy);
    if (!is_sealed(section)) {
        bytes(&copy, 1);
        command(&copy, section[13], big_endian_16(section + 11) & 0x0FFF);
        size_t loop_length = big_endian_16(copy.at);
        put(&copy, loop_length);
        copy.at += 2;
        descriptors(&copy, loop_length);
    }
    bytes(&copy, (size_t)(section + len - 4 - copy.at));
    return (size_t)(copy.to - out);
}

int32_t yardstick_section_to_sheet(const uint8_t *section, size_t len, uint64_t *out, size_t room)
{
    uint32_t row = yardstick_accept(section, len);
    if (row != ACCEPTED)
        return -(int32_t)row;
    if (room >= LONGEST_SHEET)
        return (int32_t)fill(section, len, out);

    uint64_t sheet[LONGEST_SHEET];
    size_t count = fill(section, len, sheet);
    if (room < count)
        return -ROOM;
    memcpy(out, sheet, count * sizeof *sheet);
    return (int32_t)count;
}
