/* The yardstick as a program: lines of texts from standard input, answers to standard output. */
#include "yardstick.h"

#include <stdio.h>
#include <unistd.h>

enum { PIECE = 1 << 16 };

static int put(const uint8_t *bytes, size_t len)
{
    while (len > 0) {
        ssize_t count = write(STDOUT_FILENO, bytes, len);
        if (count < 0) {
            perror("yardstick_tally: writing");
            return 0;
        }
        bytes += count;
        len -= (size_t)count;
    }
    return 1;
}

int main(void)
{
    static uint8_t input[PIECE], output[4 * PIECE + YARDSTICK_LINE];
    static struct yardstick_stream stream;
    ssize_t count;
    yardstick_prepare();
    while ((count = read(STDIN_FILENO, input, PIECE)) > 0)
        if (!put(output, yardstick_lines(&stream, input, (size_t)count, output)))
            return 1;
    if (count < 0) {
        perror("yardstick_tally: reading");
        return 1;
    }
    return put(output, yardstick_last_line(&stream, output)) ? 0 : 1;
}
