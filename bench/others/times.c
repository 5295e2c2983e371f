/* Times a library on a file of sections, each behind its length in two bytes. */
#define _POSIX_C_SOURCE 200809L
#include "times.h"

#include <inttypes.h>
#include <stdio.h>
#include <stdlib.h>
#include <time.h>

/* SLACK lies behind the last section, for a library that looks past the end of a wrong one. */
enum { MOST_BYTES = 1 << 22, MOST_SECTIONS = 1 << 14, SLACK = 1 << 13, ROUNDS = 301 };

/* The identifier of the standard's own descriptors. */
enum { CUEI = 0x43554549 };

static uint8_t bytes[MOST_BYTES + SLACK];
static const uint8_t *sections[MOST_SECTIONS];
static size_t lengths[MOST_SECTIONS];
static size_t count;

static bool read_sections(const char *name)
{
    FILE *file = fopen(name, "rb");
    if (!file)
        return false;
    size_t end = fread(bytes, 1, MOST_BYTES, file), at = 0;
    fclose(file);
    while (at + 2 <= end && count < MOST_SECTIONS) {
        size_t len = (size_t)bytes[at] << 8 | bytes[at + 1];
        sections[count] = bytes + at + 2;
        lengths[count++] = len;
        at += 2 + len;
    }
    return count > 0 && at == end;
}

struct answer insert_answer(bool cancelled, bool out_of_network, bool measured, uint64_t ticks)
{
    if (cancelled || !out_of_network)
        return (struct answer){ANSWER_NONE, 0};
    return measured ? (struct answer){ANSWER_MEASURED, ticks} : (struct answer){ANSWER_UNMEASURED, 0};
}

static bool opens_break(uint8_t segmentation_type_id)
{
    switch (segmentation_type_id) {
    case 0x22: case 0x30: case 0x32: case 0x34: case 0x36:
        return true;
    default:
        return false;
    }
}

static uint64_t big_endian(const uint8_t *at, size_t len)
{
    uint64_t value = 0;
    while (len-- > 0)
        value = value << 8 | *at++;
    return value;
}

void take_descriptor(struct answer *answer, const uint8_t *descriptor, size_t len)
{
    if (len < 13 || descriptor[0] != 2 || big_endian(descriptor + 2, 4) != CUEI)
        return;
    bool cancelled = descriptor[10] & 0x80, program = descriptor[11] & 0x80;
    bool measured = descriptor[11] & 0x40;
    size_t at = 12 + (program ? 0 : 1 + 6 * (size_t)descriptor[12]);
    size_t upid = at + (measured ? 5 : 0);
    if (cancelled || upid + 2 > len)
        return;
    size_t type = upid + 2 + descriptor[upid + 1];
    if (type >= len || !opens_break(descriptor[type]))
        return;
    if (answer->kind != ANSWER_MEASURED)
        answer->kind = measured ? ANSWER_MEASURED : ANSWER_UNMEASURED;
    uint64_t ticks = measured ? big_endian(descriptor + at, 5) : 0;
    answer->ticks = ticks > answer->ticks ? ticks : answer->ticks;
}

/* The nanoseconds of a call, in one round over all sections. */
static double round_of_calls(void)
{
    struct timespec start, end;
    volatile uint64_t seen = 0;
    clock_gettime(CLOCK_MONOTONIC, &start);
    for (size_t i = 0; i < count; i++)
        seen += answer_of(sections[i], lengths[i]).ticks;
    clock_gettime(CLOCK_MONOTONIC, &end);
    double took = (double)(end.tv_sec - start.tv_sec) * 1e9 + (double)(end.tv_nsec - start.tv_nsec);
    return took / (double)count;
}

static int by_size(const void *a, const void *b)
{
    double one = *(const double *)a, other = *(const double *)b;
    return (one > other) - (one < other);
}

static void put_answers(void)
{
    static const char letters[] = "RNABX";
    for (size_t i = 0; i < count; i++) {
        struct answer answer = answer_of(sections[i], lengths[i]);
        if (answer.kind == ANSWER_MEASURED)
            printf("%c %" PRIu64 "\n", letters[answer.kind], answer.ticks);
        else
            printf("%c\n", letters[answer.kind]);
    }
}

int time_file(int count_of_words, char **words)
{
    static double times[ROUNDS];
    if (count_of_words != 2 || !read_sections(words[1])) {
        fprintf(stderr, "usage: PROGRAM FILE, of sections, each behind its length in two bytes\n");
        return 2;
    }
    round_of_calls();
    for (size_t i = 0; i < ROUNDS; i++)
        times[i] = round_of_calls();
    qsort(times, ROUNDS, sizeof times[0], by_size);
    printf("%.2f\n", times[ROUNDS / 2]);
    put_answers();
    return 0;
}
