/* The yardstick's answer lines: one text, and a stream of lines that is cut anywhere. */
#include "yardstick.h"
#include "house.h"

#include <string.h>

/* A letter, a blank, the number and a newline. */
static size_t numbered(uint8_t letter, uint64_t number, uint8_t *out)
{
    uint8_t digits[20];
    size_t first = sizeof digits;
    do {
        digits[--first] = (uint8_t)('0' + number % 10);
        number /= 10;
    } while (number > 0);
    size_t count = sizeof digits - first;
    out[0] = letter;
    out[1] = ' ';
    memcpy(out + 2, digits + first, count);
    out[2 + count] = '\n';
    return count + 3;
}

static size_t bare(uint8_t letter, uint8_t *out)
{
    out[0] = letter;
    out[1] = '\n';
    return 2;
}

size_t yardstick_line(const uint8_t *text, size_t len, uint8_t *out)
{
    uint8_t section[YARDSTICK_TEXT / 4 * 3];
    int32_t count = yardstick_text_to_section(text, len, section, sizeof section);
    if (count < 0)
        return numbered('R', (uint64_t)-count, out);
    struct break_answer answer;
    enum row row = yardstick_break_answer(section, (size_t)count, &answer);
    if (row != ACCEPTED)
        return numbered('R', row, out);
    switch (answer.kind) {
    case BREAK_MEASURED:
        return numbered('A', answer.ticks / 90, out);
    case BREAK_UNMEASURED:
        return bare('B', out);
    case BREAK_UNREAD:
        return bare('X', out);
    default:
        return bare('N', out);
    }
}

static void hold(struct yardstick_stream *stream, const uint8_t *part, size_t len)
{
    if (stream->held > YARDSTICK_TEXT || len > YARDSTICK_TEXT - stream->held) {
        stream->held = YARDSTICK_TEXT + 1;
        return;
    }
    memcpy(stream->line + stream->held, part, len);
    stream->held += len;
}

/* A line that is too long is refused for its length, so that its bytes do not count. */
size_t yardstick_last_line(const struct yardstick_stream *stream, uint8_t *out)
{
    return stream->held > 0 ? yardstick_line(stream->line, stream->held, out) : 0;
}

size_t yardstick_lines(struct yardstick_stream *stream, const uint8_t *input, size_t len,
                       uint8_t *out)
{
    const uint8_t *end = input + len, *newline;
    uint8_t *to = out;
    for (; (newline = memchr(input, '\n', (size_t)(end - input))); input = newline + 1) {
        size_t rest = (size_t)(newline - input);
        if (stream->held == 0) {
            to += yardstick_line(input, rest, to);
            continue;
        }
        hold(stream, input, rest);
        to += yardstick_last_line(stream, to);
        stream->held = 0;
    }
    hold(stream, input, (size_t)(end - input));
    return (size_t)(to - out);
}
