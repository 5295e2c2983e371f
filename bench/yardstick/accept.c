/* The yardstick's acceptance: CRC by slicing-by-8, the fields by plain code over bytes.
   A function of a field answers the place behind it, or NULL where it breaks the grammar. */
#include "yardstick.h"
#include "parts.h"

enum { LONGEST_LENGTH = LONGEST_SECTION - 3 };

/* crc_table[k][b] is the register after the byte b and k zero bytes. */
static uint32_t crc_table[8][256];

void yardstick_prepare(void)
{
    for (uint32_t byte = 0; byte < 256; byte++) {
        uint32_t crc = byte << 24;
        for (int bit = 0; bit < 8; bit++)
            crc = crc << 1 ^ (crc >> 31 ? 0x04C11DB7 : 0);
        crc_table[0][byte] = crc;
    }
    for (int k = 1; k < 8; k++)
        for (int byte = 0; byte < 256; byte++) {
            uint32_t crc = crc_table[k - 1][byte];
            crc_table[k][byte] = crc << 8 ^ crc_table[0][crc >> 24];
        }
}

uint32_t yardstick_crc32(const uint8_t *at, size_t len)
{
    uint32_t crc = 0xFFFFFFFF;
    for (; len >= 8; at += 8, len -= 8) {
        crc ^= big_endian_32(at);
        crc = crc_table[7][crc >> 24] ^ crc_table[6][crc >> 16 & 0xFF] ^
              crc_table[5][crc >> 8 & 0xFF] ^ crc_table[4][crc & 0xFF] ^ crc_table[3][at[4]] ^
              crc_table[2][at[5]] ^ crc_table[1][at[6]] ^ crc_table[0][at[7]];
    }
    while (len-- > 0)
        crc = crc << 8 ^ crc_table[0][crc >> 24 ^ *at++];
    return crc;
}

static bool has(const uint8_t *at, const uint8_t *end, size_t count)
{
    return (size_t)(end - at) >= count;
}

static const uint8_t *skip(const uint8_t *at, const uint8_t *end, size_t count)
{
    return has(at, end, count) ? at + count : NULL;
}

static const uint8_t *splice_time(const uint8_t *at, const uint8_t *end)
{
    if (!has(at, end, 1))
        return NULL;
    return skip(at, end, at[0] & 0x80 ? 5 : 1);
}

/* break_duration if there is one, unique_program_id, avail_num, avails_expected. */
static const uint8_t *avails(const uint8_t *at, const uint8_t *end, bool duration)
{
    return skip(at, end, duration ? 9 : 4);
}

static const uint8_t *insert_components(const uint8_t *at, const uint8_t *end, bool immediate)
{
    if (!has(at, end, 1))
        return NULL;
    unsigned count = *at++;
    if (immediate)
        return skip(at, end, count);
    while (count-- > 0) {
        at = skip(at, end, 1);
        if (at)
            at = splice_time(at, end);
        if (!at)
            return NULL;
    }
    return at;
}

static const uint8_t *splice_insert(const uint8_t *at, const uint8_t *end)
{
    if (!has(at, end, 5))
        return NULL;
    if (at[4] & 0x80)
        return at + 5;
    if (!has(at, end, 6))
        return NULL;
    bool program = at[5] & 0x40, duration = at[5] & 0x20, immediate = at[5] & 0x10;
    at += 6;
    if (!program)
        at = insert_components(at, end, immediate);
    else if (!immediate)
        at = splice_time(at, end);
    return at ? avails(at, end, duration) : NULL;
}

static const uint8_t *schedule_event(const uint8_t *at, const uint8_t *end)
{
    if (!has(at, end, 5))
        return NULL;
    if (at[4] & 0x80)
        return at + 5;
    if (!has(at, end, 6))
        return NULL;
    bool program = at[5] & 0x40, duration = at[5] & 0x20;
    at += 6;
    if (program)
        at = skip(at, end, 4);
    else if (has(at, end, 1))
        at = skip(at, end, 1 + 5 * (size_t)at[0]);
    else
        return NULL;
    return at ? avails(at, end, duration) : NULL;
}

static const uint8_t *splice_schedule(const uint8_t *at, const uint8_t *end)
{
    if (!has(at, end, 1))
        return NULL;
    unsigned count = *at++;
    while (count-- > 0) {
        at = schedule_event(at, end);
        if (!at)
            return NULL;
    }
    return at;
}

/* The command of a section whose bytes before the CRC end at end. */
static const uint8_t *command(const uint8_t *section, const uint8_t *end)
{
    const uint8_t *at = section + 14;
    unsigned length = big_endian_16(section + 11) & 0x0FFF;
    bool sized = length != UNSTATED;
    if (sized) {
        if (!has(at, end, length))
            return NULL;
        end = at + length;
    }
    switch (section[13]) {
    case 0x00:
    case 0x07:
        break;
    case 0x04:
        at = splice_schedule(at, end);
        break;
    case 0x05:
        at = splice_insert(at, end);
        break;
    case 0x06:
        at = splice_time(at, end);
        break;
    case 0xFF:
        at = sized && has(at, end, 4) ? end : NULL;
        break;
    default:
        at = sized ? end : NULL;
    }
    return sized && at != end ? NULL : at;
}

static const uint8_t *segmentation(const uint8_t *at, const uint8_t *end)
{
    if (!has(at, end, 5))
        return NULL;
    if (at[4] & 0x80)
        return at + 5;
    if (!has(at, end, 6))
        return NULL;
    bool program = at[5] & 0x80, duration = at[5] & 0x40;
    at += 6;
    if (!program) {
        if (!has(at, end, 1))
            return NULL;
        at = skip(at, end, 1 + 6 * (size_t)at[0]);
    }
    if (at && duration)
        at = skip(at, end, 5);
    if (!at || !has(at, end, 2))
        return NULL;
    at = skip(at, end, 2 + (size_t)at[1]);
    if (!at || !has(at, end, 3))
        return NULL;
    if (has_sub_segments(at[0]) && end - at != 3)
        return skip(at, end, 5);
    return at + 3;
}

/* The body of a descriptor of the standard's own. */
static const uint8_t *body(uint8_t tag, const uint8_t *at, const uint8_t *end)
{
    switch (tag) {
    case 0:
        return skip(at, end, 4);
    case 1:
        return has(at, end, 2) ? skip(at, end, 2 + (size_t)(at[1] >> 5)) : NULL;
    case 2:
        return segmentation(at, end);
    case 3:
        return skip(at, end, 12);
    case 4:
        return has(at, end, 1) ? skip(at, end, 1 + 5 * (size_t)(at[0] >> 4)) : NULL;
    default:
        return end;
    }
}

/* Whether descriptors fill the bytes exactly. */
static bool descriptors(const uint8_t *at, const uint8_t *end)
{
    while (at != end) {
        if (!has(at, end, 6))
            return false;
        const uint8_t *next = skip(at + 2, end, at[1]);
        if (!next || at[1] < 4)
            return false;
        if (big_endian_32(at + 2) == CUEI && body(at[0], at + 6, next) != next)
            return false;
        at = next;
    }
    return true;
}

/* Rows 1 to 4. */
static enum row frame(const uint8_t *section, size_t len)
{
    if (len < 20)
        return SHORT;
    if (section[0] != 0xFC)
        return TABLE;
    if (section[1] & 0xC0)
        return SYNTAX;
    size_t section_length = big_endian_16(section + 1) & 0x0FFF;
    if (section_length > LONGEST_LENGTH || section_length + 3 != len)
        return SIZE;
    return ACCEPTED;
}

/* Rows 6 to 10. */
static enum row inside(const uint8_t *section, size_t len, struct loop *loop)
{
    if (section[3] != 0)
        return VERSION;
    if (is_sealed(section))
        return len < 24 ? CRYPT : ACCEPTED;

    const uint8_t *end = section + len - 4;
    const uint8_t *at = command(section, end);
    if (!at)
        return COMMAND;
    if (!has(at, end, 2))
        return LOOP;
    loop->at = at + 2;
    loop->end = skip(at + 2, end, big_endian_16(at));
    if (!loop->end)
        return LOOP;
    return descriptors(loop->at, loop->end) ? ACCEPTED : DESCRIPTOR;
}

enum row yardstick_open(const uint8_t *section, size_t len, struct loop *loop)
{
    enum row row = frame(section, len);
    if (row != ACCEPTED)
        return row;
    if (yardstick_crc32(section, len) != 0)
        return CRC;
    return inside(section, len, loop);
}

uint32_t yardstick_accept(const uint8_t *section, size_t len)
{
    struct loop loop;
    return yardstick_open(section, len, &loop);
}
