/* Cases: the words of a question and the files that they name, asked of the library over a heap that counts. */
#ifndef CASES_H
#define CASES_H

#include "quorum.h"
#include <stdbool.h>
#include <stddef.h>
#include <stdint.h>

/* A text that grows. Nothing here gives back memory before the process ends but text_free. */
struct text {
    uint8_t *at;
    size_t len, room;
};

void text_add(struct text *text, const void *at, size_t len);
void text_say(struct text *text, const char *format, ...);
void text_free(struct text *text);

struct part {
    const uint8_t *at;
    size_t len;
};

enum { WORDS, CONFIG, ORGS, SCRIPT, CERT, PARTS };

/* The words, with a zero byte between two, and the files. */
struct asked {
    struct part part[PARTS];
};

/* Reads a case: a line 'case', the lengths of the five parts, their bytes, and a line feed. How many bytes it takes; 0 where it is none. */
size_t case_read(const uint8_t *at, size_t len, struct asked *asked);
void case_write(struct text *to, const struct asked *asked);

/* The answer, copied out of the room. */
struct answer {
    quorum_end end;
    struct text text, cert;
};

/* Asks in a room of so many bytes, which ends where no byte may be touched, as each file does. */
struct answer ask(const struct asked *asked, size_t room);
void answer_free(struct answer *answer);

/* The heap of the library: how many growths it has seen, and which it refuses, counted from 1. */
void heap_begin(unsigned long first, unsigned long last);
unsigned long heap_growths(void);
/* How many blocks are taken and not given back. */
long heap_blocks(void);

/* Says what is wrong with the answer to the case, and ends the process by abort. */
void wrong(const struct asked *asked, const char *format, ...) __attribute__((noreturn, format(printf, 2, 3)));

/* The hexadecimal digits of the SHA-256, 64 of them. */
void digest(char digits[65], const uint8_t *at, size_t len);

/* Whether words and budget are such that the answer comes soon; words of a search without a budget get one. */
bool bound(const struct asked *asked, struct text *words);

/* Asks, and whatever else is to hold of the answer; the questions that take longer only if so many of eight are wanted. */
void judge(const struct asked *asked, unsigned share);

/* Refuses each stride-th growth of memory in turn, from the first on that is named. How many were refused. */
unsigned long judge_heap(const struct asked *asked, unsigned long first, unsigned long stride);

/* The first word, and the value of an option, as '--set x' or '--set=x'; none: NULL. */
bool is_word(const struct asked *asked, const char *word);
bool option(const struct asked *asked, const char *name, struct part *value);

#endif
