/* What the parts of the example `cue` share. */
#ifndef CUE_H
#define CUE_H

#include <inttypes.h>
#include <stdio.h>

#include "timpanimist.h"

/* Bytes in room for the longest text, of which the first are the section's. */
struct cue {
    uint8_t section[TIMPANIMIST_MOST_TEXT_BYTES];
    size_t count;
};

/* The next number of an answer. */
static inline uint64_t take(const uint64_t **next) { return *(*next)++; }

/* The next number, printed as the field of that name. */
static inline void field(const char *name, const uint64_t **next) { printf("  %s %" PRIu64 "\n", name, take(next)); }

static inline void print_ticks(const char *name, uint64_t t) {
    printf("%s %" PRIu64 " ticks, %" PRIu64 " ms\n", name, t, timpanimist_ticks_to_millis(t));
}

static inline void print_bytes(const char *name, const uint8_t *from, uint64_t count) {
    printf("%s", name);
    for (uint64_t i = 0; i < count; i++) printf(" %02x", from[i]);
    printf("\n");
}

/* Whether there is an answer to print; if not, its refusal is printed. */
bool answered(const char *what, uint64_t answer);

void print_command(const struct cue *cue);
void print_descriptors(const struct cue *cue);

#endif
