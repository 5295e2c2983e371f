/* Answers base64 texts line by line, as the tally does: lines < TEXTS
 *
 * Each line of standard input gets one line on standard output: `A m` for a break of m milliseconds, `B` for a break without
 * measure, `N` for none, `X` for unread, `R n` for a refusal. The memory it takes stays the same for an input of any size, and
 * the lines of a piece are answered before the next piece is read. The exit status is 0, or 2 with any argument, where it
 * only says how it is used, or 3 where reading or writing fails; standard error stays empty otherwise. */
#define _POSIX_C_SOURCE 200809L
#include <errno.h>
#include <stdio.h>
#include <string.h>
#include <unistd.h>

#include "timpanimist.h"

/* The carry and the output are long enough, so that no call below is refused. */
static uint8_t input[1 << 16];
static uint8_t output[1 << 16];
static uint8_t carry[TIMPANIMIST_LONGEST_TEXT];

/* The name that the program was called by. */
static const char *program = "lines";

/* It takes no arguments. One that is given may name a file, whose lines would otherwise be waited for in vain. */
static int usage(void) {
    fprintf(stderr, "usage: %s <TEXTS >ANSWERS\n", program);
    return 2;
}

/* Says what failed, and why. */
static int failed(const char *what) {
    fprintf(stderr, "%s: %s: %s\n", program, what, strerror(errno));
    return 3;
}

/* Writes the first bytes of the output, and says whether all of them went out. */
static bool put(size_t count) {
    size_t done = 0;
    while (done < count) {
        ssize_t more = write(STDOUT_FILENO, output + done, count - done);
        if (more < 0 && errno != EINTR) return false;
        if (more > 0) done += (size_t)more;
    }
    return true;
}

/* Answers the lines that end in the first bytes of the input, and says whether all answers went out. A turn ends early where
   the output is full: once that is written, the next one goes on with the rest. */
static bool answer(uint64_t *held, size_t count) {
    size_t at = 0;
    while (at < count) {
        uint64_t turn[TIMPANIMIST_TURN];
        timpanimist_lines(*held, input + at, count - at, carry, sizeof carry, output, sizeof output, turn, TIMPANIMIST_TURN);
        *held = turn[0];
        at += (size_t)turn[1];
        if (!put((size_t)turn[2])) return false;
    }
    return true;
}

int main(int count_of_words, char **words) {
    uint64_t held = 0;
    ssize_t count;
    if (count_of_words > 0) {
        const char *slash = strrchr(words[0], '/');
        program = slash ? slash + 1 : words[0];
    }
    if (count_of_words > 1) return usage();
    while ((count = read(STDIN_FILENO, input, sizeof input)) != 0) {
        if (count < 0 && errno == EINTR) continue;
        if (count < 0) return failed("standard input");
        if (!answer(&held, (size_t)count)) return failed("standard output");
    }
    if (!put((size_t)timpanimist_last_line(held, carry, sizeof carry, output, sizeof output)))
        return failed("standard output");
    return 0;
}
