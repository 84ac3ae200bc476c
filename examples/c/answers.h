/* What the example programs share: the lent memory and the calls on it, how an answer is printed, and how a plan's file is read. */
#ifndef ANSWERS_H
#define ANSWERS_H

#include "rolsipay.h"

#include <inttypes.h>
#include <stdio.h>
#include <stdlib.h>

static rolsipay_leaf row[ROLSIPAY_LEAVES];
static rolsipay_head head;
static rolsipay_state state;

/* The words of replies, by their numbers. */
static const char *const words[] = {"refused", "go", "suspend", "stay", "resume", "ended"};

/* Releases on the lent memory. */
static rolsipay_reply release(void)
{
    return rolsipay_release(row, ROLSIPAY_LEAVES, &head, &state);
}

/* Reports a point with a reading. */
static rolsipay_reply report(uint64_t point, uint64_t reading)
{
    return rolsipay_report(row, ROLSIPAY_LEAVES, &head, &state, point, reading);
}

/* Ends with a reading. */
static rolsipay_reply end(uint64_t reading)
{
    return rolsipay_end(row, ROLSIPAY_LEAVES, &head, &state, reading);
}

/* Prints an answer as one line: the word, remaining and margin, then 1 if late, else 0; for the end the word and the late mark; or `refused` and the number. A
 * report's remaining is 1 at least, and an end's 0. */
static void print(rolsipay_reply reply)
{
    if (reply.word == ROLSIPAY_REFUSED)
        printf("refused %" PRIu64 "\n", reply.number);
    else if (reply.word == ROLSIPAY_ENDED || (reply.word == ROLSIPAY_RESUME && reply.remaining == 0))
        printf("%s %" PRIu64 "\n", words[reply.word], reply.late);
    else
        printf("%s %" PRIu64 " %" PRId64 " %" PRIu64 "\n", words[reply.word], reply.remaining, reply.margin, reply.late);
}

/* Ends the program with a failure, once standard error has the file's name and what is wrong with it. */
static void fail(const char *name)
{
    perror(name);
    exit(EXIT_FAILURE);
}

/* Reads the plan in a file into the first records of the row, and the head. The text has room for one byte more than a plan may have, so that a
 * longer one is seen to be. */
static rolsipay_ruling read_plan(const char *name, size_t records)
{
    static uint8_t text[ROLSIPAY_TEXT + 1];
    FILE *file = fopen(name, "rb");
    if (file == NULL)
        fail(name);
    size_t bytes = fread(text, 1, sizeof text, file);
    if (ferror(file))
        fail(name);
    fclose(file);
    return rolsipay_read(text, bytes, row, records, &head);
}

#endif
