/* What the programs over other libraries have in common: the sections, the times, and the answers. */
#ifndef OTHERS_TIMES_H
#define OTHERS_TIMES_H

#include <stdbool.h>
#include <stddef.h>
#include <stdint.h>

/* Whether a section is accepted, opens a break, and how long that lasts. */
enum answer_kind { ANSWER_REFUSED, ANSWER_NONE, ANSWER_MEASURED, ANSWER_UNMEASURED, ANSWER_UNREAD };

struct answer {
    enum answer_kind kind;
    uint64_t ticks;
};

/* By the library: accepts the section as far as the library can, and answers for the break. */
struct answer answer_of(const uint8_t *section, size_t len);

/* An insert's answer, from the fields that the library read. */
struct answer insert_answer(bool cancelled, bool out_of_network, bool measured, uint64_t ticks);

/* The answer of a time signal, whose descriptors are taken one by one; it starts with ANSWER_NONE. They
   are read here, since GStreamer hands out their bytes alone; for biTStream too, so that less of what
   could not be compiled is called. One that is cut counts as none. */
void take_descriptor(struct answer *answer, const uint8_t *descriptor, size_t len);

/* Reads the sections of the file that is named, and writes the median of a call to standard output,
   in nanoseconds, and behind it a line for each section with its answer. The status to exit with. */
int time_file(int count_of_words, char **words);

#endif
