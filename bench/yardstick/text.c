/* The yardstick's base64, by tables, four characters to three bytes. */
#include "yardstick.h"
#include "parts.h"

/* The six bits of a character; 64 for one outside the alphabet. */
static const uint8_t sextet_of[256] = {
    64, 64, 64, 64, 64, 64, 64, 64, 64, 64, 64, 64, 64, 64, 64, 64,
    64, 64, 64, 64, 64, 64, 64, 64, 64, 64, 64, 64, 64, 64, 64, 64,
    64, 64, 64, 64, 64, 64, 64, 64, 64, 64, 64, 62, 64, 64, 64, 63,
    52, 53, 54, 55, 56, 57, 58, 59, 60, 61, 64, 64, 64, 64, 64, 64,
    64,  0,  1,  2,  3,  4,  5,  6,  7,  8,  9, 10, 11, 12, 13, 14,
    15, 16, 17, 18, 19, 20, 21, 22, 23, 24, 25, 64, 64, 64, 64, 64,
    64, 26, 27, 28, 29, 30, 31, 32, 33, 34, 35, 36, 37, 38, 39, 40,
    41, 42, 43, 44, 45, 46, 47, 48, 49, 50, 51, 64, 64, 64, 64, 64,
    64, 64, 64, 64, 64, 64, 64, 64, 64, 64, 64, 64, 64, 64, 64, 64,
    64, 64, 64, 64, 64, 64, 64, 64, 64, 64, 64, 64, 64, 64, 64, 64,
    64, 64, 64, 64, 64, 64, 64, 64, 64, 64, 64, 64, 64, 64, 64, 64,
    64, 64, 64, 64, 64, 64, 64, 64, 64, 64, 64, 64, 64, 64, 64, 64,
    64, 64, 64, 64, 64, 64, 64, 64, 64, 64, 64, 64, 64, 64, 64, 64,
    64, 64, 64, 64, 64, 64, 64, 64, 64, 64, 64, 64, 64, 64, 64, 64,
    64, 64, 64, 64, 64, 64, 64, 64, 64, 64, 64, 64, 64, 64, 64, 64,
    64, 64, 64, 64, 64, 64, 64, 64, 64, 64, 64, 64, 64, 64, 64, 64,
};

static const char alphabet[64] = "ABCDEFGHIJKLMNOPQRSTUVWXYZabcdefghijklmnopqrstuvwxyz0123456789+/";

static uint32_t group(const uint8_t *text)
{
    return (uint32_t)sextet_of[text[0]] << 18 | (uint32_t)sextet_of[text[1]] << 12 |
           (uint32_t)sextet_of[text[2]] << 6 | sextet_of[text[3]];
}

int32_t yardstick_text_to_section(const uint8_t *text, size_t len, uint8_t *out, size_t room)
{
    if (len % 4 != 0 || len > YARDSTICK_TEXT)
        return -TEXTLEN;
    if (len == 0)
        return 0;

    size_t padding = text[len - 1] != '=' ? 0 : text[len - 2] != '=' ? 1 : 2;
    size_t before = len - padding;
    unsigned seen = 0;
    for (size_t i = 0; i < before; i++)
        seen |= sextet_of[text[i]];
    if (seen > 63)
        return -TEXTCHAR;

    unsigned spare = padding == 0 ? 0 : padding == 1 ? 3 : 15;
    if ((sextet_of[text[before - 1]] & spare) != 0)
        return -TEXTBITS;
    size_t count = len / 4 * 3 - padding;
    if (room < count)
        return -ROOM;

    size_t whole = before / 4;
    for (size_t i = 0; i < whole; i++, text += 4, out += 3) {
        uint32_t bits = group(text);
        out[0] = (uint8_t)(bits >> 16);
        out[1] = (uint8_t)(bits >> 8);
        out[2] = (uint8_t)bits;
    }
    if (padding > 0)
        out[0] = (uint8_t)(sextet_of[text[0]] << 2 | sextet_of[text[1]] >> 4);
    if (padding == 1)
        out[1] = (uint8_t)(sextet_of[text[1]] << 4 | sextet_of[text[2]] >> 2);
    return (int32_t)count;
}

int32_t yardstick_section_to_text(const uint8_t *section, size_t len, uint8_t *out, size_t room)
{
    if (len > LONGEST_SECTION)
        return -SIZE;
    size_t count = (len + 2) / 3 * 4;
    if (room < count)
        return -ROOM;
    for (; len >= 3; section += 3, len -= 3, out += 4) {
        uint32_t bits = big_endian_16(section) << 8 | section[2];
        out[0] = (uint8_t)alphabet[bits >> 18];
        out[1] = (uint8_t)alphabet[bits >> 12 & 63];
        out[2] = (uint8_t)alphabet[bits >> 6 & 63];
        out[3] = (uint8_t)alphabet[bits & 63];
    }
    if (len > 0) {
        uint32_t bits = (uint32_t)section[0] << 8 | (len == 2 ? section[1] : 0);
        out[0] = (uint8_t)alphabet[bits >> 10];
        out[1] = (uint8_t)alphabet[bits >> 4 & 63];
        out[2] = len == 2 ? (uint8_t)alphabet[bits << 2 & 63] : '=';
        out[3] = '=';
    }
    return (int32_t)count;
}
