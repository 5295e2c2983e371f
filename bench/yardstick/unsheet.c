/* The yardstick's section of a sheet. Each function takes the numbers of one structure, checks
   them and puts its bytes; false says that they are no sheet. */
#include "yardstick.h"
#include "parts.h"

#include <string.h>

/* The numbers that are left, where the next byte goes, and where none may go. */
struct copy {
    const uint64_t *at, *end;
    uint8_t *to, *limit;
};

/* The next numbers, or NULL where there are not so many. */
static const uint64_t *take(struct copy *copy, size_t count)
{
    if ((size_t)(copy->end - copy->at) < count)
        return NULL;
    copy->at += count;
    return copy->at - count;
}

/* Where the next bytes go, or NULL where the section would be too long. */
static uint8_t *place(struct copy *copy, size_t count)
{
    if ((size_t)(copy->limit - copy->to) < count)
        return NULL;
    copy->to += count;
    return copy->to - count;
}

static void write_16(uint8_t *to, uint64_t bits)
{
    to[0] = (uint8_t)(bits >> 8);
    to[1] = (uint8_t)bits;
}

static void write_32(uint8_t *to, uint64_t bits)
{
    to[0] = (uint8_t)(bits >> 24);
    to[1] = (uint8_t)(bits >> 16);
    to[2] = (uint8_t)(bits >> 8);
    to[3] = (uint8_t)bits;
}

static bool put_8(struct copy *copy, uint64_t bits)
{
    uint8_t *to = place(copy, 1);
    if (!to)
        return false;
    to[0] = (uint8_t)bits;
    return true;
}

static bool put_16(struct copy *copy, uint64_t bits)
{
    uint8_t *to = place(copy, 2);
    if (!to)
        return false;
    write_16(to, bits);
    return true;
}

static bool put_40(struct copy *copy, uint64_t bits)
{
    uint8_t *to = place(copy, 5);
    if (!to)
        return false;
    to[0] = (uint8_t)(bits >> 32);
    write_32(to + 1, bits);
    return true;
}

static bool bytes(struct copy *copy, size_t count)
{
    const uint64_t *n = take(copy, count);
    uint8_t *to = place(copy, count);
    if (!n || !to)
        return false;
    uint64_t seen = 0;
    for (size_t i = 0; i < count; i++) {
        seen |= n[i];
        to[i] = (uint8_t)n[i];
    }
    return seen < 256;
}

/* A byte that says how many of something follow. */
static bool counted(struct copy *copy, uint64_t *count)
{
    const uint64_t *n = copy->at;
    if (!bytes(copy, 1))
        return false;
    *count = n[0];
    return true;
}

static bool number_32(struct copy *copy)
{
    const uint64_t *n = take(copy, 1);
    uint8_t *to = place(copy, 4);
    if (!n || !to || n[0] >> 32)
        return false;
    write_32(to, n[0]);
    return true;
}

/* A flag, six reserved bits and a time: break_duration(), and splice_time() with a time. */
static bool flag_and_clock(struct copy *copy)
{
    const uint64_t *n = take(copy, 3);
    if (!n || n[0] > 1 || n[1] >> 6 || n[2] >> 33)
        return false;
    return put_40(copy, n[0] << 39 | n[1] << 33 | n[2]);
}

static bool splice_time(struct copy *copy)
{
    if (copy->at == copy->end)
        return false;
    if (copy->at[0] != 0)
        return flag_and_clock(copy);
    const uint64_t *n = take(copy, 2);
    return n && n[1] < 128 && put_8(copy, n[1]);
}

/* An event's id, its cancel indicator and seven reserved bits. */
static bool event(struct copy *copy, bool *cancelled)
{
    const uint64_t *n = take(copy, 3);
    if (!n || n[0] >> 32 || n[1] > 1 || n[2] >> 7)
        return false;
    *cancelled = n[1];
    return put_40(copy, n[0] << 8 | n[1] << 7 | n[2]);
}

static bool avails(struct copy *copy, bool duration)
{
    if (duration && !flag_and_clock(copy))
        return false;
    const uint64_t *n = take(copy, 1);
    return n && n[0] < 0x10000 && put_16(copy, n[0]) && bytes(copy, 2);
}

static bool insert_components(struct copy *copy, bool immediate)
{
    uint64_t count;
    if (!counted(copy, &count))
        return false;
    if (immediate)
        return bytes(copy, count);
    while (count-- > 0)
        if (!bytes(copy, 1) || !splice_time(copy))
            return false;
    return true;
}

static bool splice_insert(struct copy *copy)
{
    bool cancelled;
    if (!event(copy, &cancelled))
        return false;
    if (cancelled)
        return true;
    const uint64_t *n = take(copy, 5);
    if (!n || (n[0] | n[1] | n[2] | n[3]) > 1 || n[4] >> 4)
        return false;
    bool program = n[1], duration = n[2], immediate = n[3];
    if (!put_8(copy, n[0] << 7 | n[1] << 6 | n[2] << 5 | n[3] << 4 | n[4]))
        return false;
    if (!program && !insert_components(copy, immediate))
        return false;
    if (program && !immediate && !splice_time(copy))
        return false;
    return avails(copy, duration);
}

static bool schedule_components(struct copy *copy)
{
    uint64_t count;
    if (!counted(copy, &count))
        return false;
    while (count-- > 0)
        if (!bytes(copy, 1) || !number_32(copy))
            return false;
    return true;
}

static bool schedule_event(struct copy *copy)
{
    bool cancelled;
    if (!event(copy, &cancelled))
        return false;
    if (cancelled)
        return true;
    const uint64_t *n = take(copy, 4);
    if (!n || (n[0] | n[1] | n[2]) > 1 || n[3] >> 5)
        return false;
    bool program = n[1], duration = n[2];
    if (!put_8(copy, n[0] << 7 | n[1] << 6 | n[2] << 5 | n[3]))
        return false;
    if (program ? !number_32(copy) : !schedule_components(copy))
        return false;
    return avails(copy, duration);
}

static bool splice_schedule(struct copy *copy)
{
    uint64_t count;
    if (!counted(copy, &count))
        return false;
    while (count-- > 0)
        if (!schedule_event(copy))
            return false;
    return true;
}

/* splice_command_type and the command, of the length that is stated. */
static bool command(struct copy *copy, uint64_t length)
{
    uint64_t type;
    if (!counted(copy, &type))
        return false;
    uint8_t *start = copy->to;
    bool sized = length != UNSTATED, fits = true;
    switch (type) {
    case 0x00:
    case 0x07:
        break;
    case 0x04:
        fits = splice_schedule(copy);
        break;
    case 0x05:
        fits = splice_insert(copy);
        break;
    case 0x06:
        fits = splice_time(copy);
        break;
    case 0xFF:
        fits = sized && length >= 4 && number_32(copy) && bytes(copy, length - 4);
        break;
    default:
        fits = sized && bytes(copy, length);
    }
    return fits && (!sized || (size_t)(copy->to - start) == length);
}

static bool dtmf(struct copy *copy)
{
    const uint64_t *n = take(copy, 3);
    if (!n || n[0] >> 8 || n[1] >> 3 || n[2] >> 5)
        return false;
    return put_16(copy, n[0] << 8 | n[1] << 5 | n[2]) && bytes(copy, n[1]);
}

/* The flags of a delivery: four, or five reserved bits where it is not restricted. */
static bool segmentation_flags(struct copy *copy, bool *program, bool *duration)
{
    const uint64_t *n = take(copy, 4);
    if (!n || (n[0] | n[1] | n[2]) > 1)
        return false;
    *program = n[0];
    *duration = n[1];
    uint64_t flags = n[0] << 7 | n[1] << 6 | n[2] << 5;
    if (n[2])
        return n[3] < 32 && put_8(copy, flags | n[3]);
    if (!take(copy, 3) || (n[3] | n[4] | n[5]) > 1 || n[6] > 3)
        return false;
    return put_8(copy, flags | n[3] << 4 | n[4] << 3 | n[5] << 2 | n[6]);
}

static bool segmentation_components(struct copy *copy)
{
    uint64_t count;
    if (!counted(copy, &count))
        return false;
    while (count-- > 0) {
        const uint64_t *n = take(copy, 3);
        if (!n || n[0] >> 8 || n[1] >> 7 || n[2] >> 33)
            return false;
        if (!put_8(copy, n[0]) || !put_40(copy, n[1] << 33 | n[2]))
            return false;
    }
    return true;
}

static bool segmentation_duration(struct copy *copy)
{
    const uint64_t *n = take(copy, 1);
    return n && !(n[0] >> 40) && put_40(copy, n[0]);
}

/* segmentation_upid_type, the UPID and its length, and the segment's type and numbers. */
static bool upid_and_segment(struct copy *copy, const uint8_t *end)
{
    uint64_t length, type;
    if (!bytes(copy, 1) || !counted(copy, &length) || !bytes(copy, length))
        return false;
    if (!counted(copy, &type) || !bytes(copy, 2))
        return false;
    return !has_sub_segments(type) || copy->to == end || bytes(copy, 2);
}

static bool segmentation(struct copy *copy, const uint8_t *end)
{
    bool cancelled, program, duration;
    if (!event(copy, &cancelled))
        return false;
    if (cancelled)
        return true;
    if (!segmentation_flags(copy, &program, &duration))
        return false;
    if (!program && !segmentation_components(copy))
        return false;
    if (duration && !segmentation_duration(copy))
        return false;
    return upid_and_segment(copy, end);
}

static bool time_descriptor(struct copy *copy)
{
    const uint64_t *n = take(copy, 3);
    uint8_t *to = place(copy, 12);
    if (!n || !to || n[0] >> 48 || n[1] >> 32 || n[2] >> 16)
        return false;
    write_16(to, n[0] >> 32);
    write_32(to + 2, n[0]);
    write_32(to + 6, n[1]);
    write_16(to + 10, n[2]);
    return true;
}

static bool audio(struct copy *copy)
{
    const uint64_t *n = take(copy, 2);
    if (!n || n[0] >> 4 || n[1] >> 4 || !put_8(copy, n[0] << 4 | n[1]))
        return false;
    for (uint64_t count = n[0]; count > 0; count--) {
        n = take(copy, 5);
        if (!n || n[0] >> 8 || n[1] >> 24 || n[2] >> 3 || n[3] >> 4 || n[4] > 1)
            return false;
        if (!put_40(copy, n[0] << 32 | n[1] << 8 | n[2] << 5 | n[3] << 1 | n[4]))
            return false;
    }
    return true;
}

/* The body of a descriptor, which has length bytes. */
static bool body(struct copy *copy, uint64_t tag, uint64_t identifier, size_t length)
{
    if (identifier != CUEI)
        return bytes(copy, length);
    switch (tag) {
    case 0:
        return number_32(copy);
    case 1:
        return dtmf(copy);
    case 2:
        return segmentation(copy, copy->to + length);
    case 3:
        return time_descriptor(copy);
    case 4:
        return audio(copy);
    default:
        return bytes(copy, length);
    }
}

static bool descriptor(struct copy *copy)
{
    const uint64_t *n = copy->at;
    if (!bytes(copy, 2) || n[1] < 4 || !number_32(copy))
        return false;
    uint8_t *start = copy->to;
    size_t length = n[1] - 4;
    if ((size_t)(copy->limit - start) < length)
        return false;
    return body(copy, n[0], n[2], length) && (size_t)(copy->to - start) == length;
}

static bool descriptors(struct copy *copy)
{
    const uint64_t *n = take(copy, 1);
    if (!n || n[0] >> 16 || !put_16(copy, n[0]))
        return false;
    if ((size_t)(copy->limit - copy->to) < n[0])
        return false;
    uint8_t *end = copy->to + n[0];
    while (copy->to < end)
        if (!descriptor(copy))
            return false;
    return copy->to == end;
}

/* Everything before the sealed bytes or splice_command_type, section_length left open. */
static bool header(struct copy *copy)
{
    const uint64_t *n = take(copy, 11);
    if (!n || n[0] != 0xFC || n[1] || n[2] || n[3] > 3 || n[4])
        return false;
    if (n[5] > 1 || n[6] >> 6 || n[7] >> 33 || n[8] >> 8 || n[9] >> 12 || n[10] >> 12)
        return false;
    uint8_t *to = place(copy, 13);
    to[0] = 0xFC;
    write_16(to + 1, n[3] << 12);
    to[3] = 0;
    to[4] = (uint8_t)(n[5] << 7 | n[6] << 1 | n[7] >> 32);
    write_32(to + 5, n[7]);
    to[9] = (uint8_t)n[8];
    write_16(to + 10, n[9] << 4 | n[10] >> 8);
    to[12] = (uint8_t)n[10];
    return true;
}

/* The bytes before the CRC, section_length left open. */
static bool fill(struct copy *copy)
{
    const uint64_t *n = copy->at;
    if (!header(copy))
        return false;
    bool sealed = n[5];
    if (sealed && copy->end - copy->at < 7)
        return false;
    if (!sealed && (!command(copy, n[10]) || !descriptors(copy)))
        return false;
    return bytes(copy, (size_t)(copy->end - copy->at));
}

int32_t yardstick_sheet_to_section(const uint64_t *sheet, size_t len, uint8_t *out, size_t room)
{
    uint8_t section[LONGEST_SECTION];
    struct copy copy = {sheet, sheet + len, section, section + LONGEST_SECTION - 4};
    if (!fill(&copy))
        return -SHEET;
    size_t before = (size_t)(copy.to - section), count = before + 4;
    if (room < count)
        return -ROOM;
    section[1] |= (uint8_t)((count - 3) >> 8);
    section[2] = (uint8_t)(count - 3);
    write_32(copy.to, yardstick_crc32(section, before));
    memcpy(out, section, count);
    return (int32_t)count;
}
