/* Asks the library over guarded buffers and a heap of its own. */
#define _GNU_SOURCE
#include "cases.h"
#include <stdarg.h>
#include <stdio.h>
#include <stdlib.h>
#include <string.h>
#include <sys/mman.h>

/* ---- Texts */

void text_add(struct text *text, const void *at, size_t len) {
    if (text->len + len > text->room || !text->at) {
        text->room = (text->len + len) * 2 + 64;
        text->at = realloc(text->at, text->room);
        if (!text->at) abort();
    }
    if (len) memcpy(text->at + text->len, at, len);
    text->len += len;
}

void text_say(struct text *text, const char *format, ...) {
    char line[256];
    va_list rest;
    va_start(rest, format);
    int len = vsnprintf(line, sizeof line, format, rest);
    va_end(rest);
    text_add(text, line, (size_t)len < sizeof line ? (size_t)len : sizeof line - 1);
}

void text_free(struct text *text) {
    free(text->at);
    memset(text, 0, sizeof *text);
}

/* ---- The heap: each block has its size before it and a mark on either side, so that a second release and a byte past it show.
 * (`ok` fills its register, since the code compiled without proofs reads all of it.) */

struct head {
    size_t size, mark;
};
struct tried {
    size_t ok;
    void *at;
};
enum { HELD = 0x5ca1ab1e, GIVEN_BACK = 0x5ca1ab1f };

static unsigned long growths, refused_first = 1, refused_last;
static long blocks;
static char no_memory;

void heap_begin(unsigned long first, unsigned long last) { growths = 0, refused_first = first, refused_last = last; }
unsigned long heap_growths(void) { return growths; }
long heap_blocks(void) { return blocks; }

static bool is_refused(size_t size) {
    growths++;
    return (refused_first <= growths && growths <= refused_last) || size > (size_t)1 << 30;
}

static struct head *head_of(void *at) {
    struct head *head = (struct head *)at - 1;
    if (head->mark != HELD) fprintf(stderr, "coverage: a block that is not held is resized or given back\n"), abort();
    size_t end;
    memcpy(&end, (char *)at + head->size, sizeof end);
    if (end != HELD) fprintf(stderr, "coverage: a byte past a block of %zu was written\n", head->size), abort();
    return head;
}

static struct tried held(struct head *head, size_t size) {
    struct tried none = {0, &no_memory};
    if (!head) return none;
    size_t end = HELD;
    head->size = size, head->mark = HELD;
    memcpy((char *)(head + 1) + size, &end, sizeof end);
    struct tried found = {1, head + 1};
    return found;
}

struct tried rattle_alloc(size_t size, size_t align);
struct tried rattle_realloc(void *at, size_t kept, size_t size, size_t align);
void rattle_dealloc(void *at);

struct tried rattle_alloc(size_t size, size_t align) {
    (void)align;
    struct tried made = held(is_refused(size) ? NULL : malloc(sizeof(struct head) + size + sizeof(size_t)), size);
    blocks += made.ok != 0;
    return made;
}

struct tried rattle_realloc(void *at, size_t kept, size_t size, size_t align) {
    (void)align;
    struct head *head = head_of(at);
    if (kept > head->size) fprintf(stderr, "coverage: more is kept than the block has\n"), abort();
    return held(is_refused(size) ? NULL : realloc(head, sizeof(struct head) + size + sizeof(size_t)), size);
}

void rattle_dealloc(void *at) {
    struct head *head = head_of(at);
    head->mark = GIVEN_BACK;
    blocks--;
    free(head);
}

/* ---- Cases */

size_t case_read(const uint8_t *at, size_t len, struct asked *asked) {
    size_t used = 5, lens[PARTS], sum = 0;
    if (len < 6 || memcmp(at, "case ", 5)) return 0;
    for (int i = 0; i < PARTS; i++) {
        size_t digits = 0;
        lens[i] = 0;
        while (used < len && at[used] >= '0' && at[used] <= '9' && digits++ < 7) lens[i] = lens[i] * 10 + (size_t)(at[used++] - '0');
        if (!digits || used >= len || at[used++] != (i + 1 < PARTS ? ' ' : '\n')) return 0;
        sum += lens[i];
    }
    if (sum + 1 > len - used || at[used + sum] != '\n') return 0;
    for (int i = 0; i < PARTS; i++) {
        asked->part[i].at = at + used, asked->part[i].len = lens[i];
        used += lens[i];
    }
    return used + 1;
}

void case_write(struct text *to, const struct asked *asked) {
    for (int i = 0; i < PARTS; i++) text_say(to, "%s%zu%s", i ? " " : "case ", asked->part[i].len, i + 1 < PARTS ? "" : "\n");
    for (int i = 0; i < PARTS; i++) text_add(to, asked->part[i].at, asked->part[i].len);
    text_add(to, "\n", 1);
}

/* ---- Asking */

/* Bytes that end at a page that may not be touched. */
struct guarded {
    uint8_t *at;
    size_t len;
};

enum { PAGE = 4096, BESIDE = 64 };

static uint8_t *guarded(struct guarded *held, size_t len) {
    size_t wanted = (len + BESIDE + PAGE - 1) / PAGE * PAGE;
    if (wanted > held->len) {
        if (held->at) munmap(held->at, held->len + PAGE);
        held->len = wanted * 2;
        held->at = mmap(NULL, held->len + PAGE, PROT_READ | PROT_WRITE, MAP_PRIVATE | MAP_ANONYMOUS, -1, 0);
        if (held->at == MAP_FAILED || mprotect(held->at + held->len, PAGE, PROT_NONE)) abort();
    }
    return held->at + held->len - len;
}

struct answer ask(const struct asked *asked, size_t room_len) {
    static struct guarded files[PARTS], rooms;
    const uint8_t *at[PARTS];
    struct answer answer = {0};
    for (int i = 0; i < PARTS; i++) {
        uint8_t *to = guarded(&files[i], asked->part[i].len);
        if (asked->part[i].len) memcpy(to, asked->part[i].at, asked->part[i].len);
        at[i] = to;
    }
    uint8_t *room = guarded(&rooms, room_len);
    memset(room - BESIDE, 0xa5, BESIDE);
    memset(&answer.end, 0xff, sizeof answer.end);
    long before = blocks;
    const struct part *part = asked->part;
    quorum_answer(at[WORDS], part[WORDS].len, at[CONFIG], part[CONFIG].len, at[ORGS], part[ORGS].len, at[SCRIPT], part[SCRIPT].len,
                  at[CERT], part[CERT].len, room, room_len, &answer.end);
    quorum_end *end = &answer.end;
    if (blocks != before) wrong(asked, "%ld blocks of memory are not given back", blocks - before);
    for (int i = 0; i < BESIDE; i++)
        if ((room - BESIDE)[i] != 0xa5) wrong(asked, "the byte %d before the room was written", BESIDE - i);
    for (int i = 0; i < PARTS; i++)
        if (part[i].len && memcmp(at[i], part[i].at, part[i].len)) wrong(asked, "a file was written");
    if (end->status > 10) wrong(asked, "status %d", end->status);
    if (end->text > room_len || end->cert > room_len - end->text) wrong(asked, "the lengths %zu and %zu are not within the room of %zu", end->text, end->cert, room_len);
    if ((end->status == 6 || end->status == 7 || end->status == 8) && (end->text || end->cert)) wrong(asked, "status %d with a text", end->status);
    if (end->status == 7 ? end->wanting <= room_len : end->wanting != 0) wrong(asked, "status %d wants %zu bytes", end->status, end->wanting);
    text_add(&answer.text, room + room_len - end->text, end->text);
    text_add(&answer.cert, room, end->cert);
    return answer;
}

void answer_free(struct answer *answer) {
    text_free(&answer->text);
    text_free(&answer->cert);
}

void wrong(const struct asked *asked, const char *format, ...) {
    va_list rest;
    fprintf(stderr, "coverage: wrong: ");
    va_start(rest, format);
    vfprintf(stderr, format, rest);
    va_end(rest);
    fprintf(stderr, "\ncoverage: the words:");
    for (size_t i = 0; i < asked->part[WORDS].len; i++) fputc(asked->part[WORDS].at[i] ? asked->part[WORDS].at[i] : ' ', stderr);
    struct text made = {0};
    case_write(&made, asked);
    FILE *file = fopen("wrong.case", "wb");
    if (file) fwrite(made.at, 1, made.len, file), fclose(file), fprintf(stderr, "\ncoverage: the case is in wrong.case");
    fprintf(stderr, "\n");
    abort();
}
