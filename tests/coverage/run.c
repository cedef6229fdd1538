/* Asks all cases of the files given: run [--refuse N] [--keep FOLDER] [--reached FILE] FILE..
 *
 * Each answer is judged; with --refuse also those with each N-th growth of memory refused. With --keep the cases, and the checks
 * of certificates that are made, are put into the folder, each with its status and text, for a second checker.
 * With --reached, in a build that counts, nothing is judged, and the file gets a line for each branch: its place in the program, and
 * whether it was reached with ample memory and, after that, without. */
#define _GNU_SOURCE
#include "cases.h"
#include <stdio.h>
#include <stdlib.h>
#include <string.h>
#include <time.h>

/* The build that counts has one byte a branch, and its address in the program. */
static uint8_t *counters, *counters_end;
static const uintptr_t *places;

void __sanitizer_cov_8bit_counters_init(uint8_t *begin, uint8_t *end);
void __sanitizer_cov_pcs_init(const uintptr_t *begin, const uintptr_t *end);
extern char __executable_start;

void __sanitizer_cov_8bit_counters_init(uint8_t *begin, uint8_t *end) { counters = begin, counters_end = end; }
void __sanitizer_cov_pcs_init(const uintptr_t *begin, const uintptr_t *end) { places = begin, (void)end; }

static struct text read_file(const char *path) {
    struct text held = {0};
    FILE *file = fopen(path, "rb");
    uint8_t piece[65536];
    if (!file) perror(path), exit(1);
    for (size_t len; (len = fread(piece, 1, sizeof piece, file)) > 0;) text_add(&held, piece, len);
    fclose(file);
    return held;
}

/* The number of a search's certificate, after that of its case. */
enum { MADE = 1000000 };

static void keep(const char *folder, const struct asked *asked, unsigned long at) {
    struct text words = {0};
    struct asked bounded = *asked;
    if (!bound(asked, &words)) return;
    bounded.part[WORDS].at = words.at, bounded.part[WORDS].len = words.len;
    struct answer found = ask(&bounded, 1 << 18);
    struct text made = {0};
    char path[4096];
    text_say(&made, "%d %zu\n", found.end.status, found.text.len);
    text_add(&made, found.text.at, found.text.len);
    case_write(&made, asked);
    snprintf(path, sizeof path, "%s/%lu", folder, at);
    FILE *file = fopen(path, "wb");
    if (!file || fwrite(made.at, 1, made.len, file) != made.len || fclose(file)) perror(path), exit(1);
    if (found.cert.len && !is_word(asked, "trial")) {
        static const char check[] = "check\0config\0cert\0--orgs=orgs";
        bounded.part[WORDS].at = (const uint8_t *)check, bounded.part[WORDS].len = is_word(asked, "org-blocking") ? sizeof check - 1 : 17;
        bounded.part[CERT].at = found.cert.at, bounded.part[CERT].len = found.cert.len;
        keep(folder, &bounded, at + MADE);
    }
    answer_free(&found);
    text_free(&made);
    text_free(&words);
}

static void ask_once(const struct asked *asked) {
    struct text words = {0};
    struct asked bounded = *asked;
    if (bound(asked, &words)) {
        bounded.part[WORDS].at = words.at, bounded.part[WORDS].len = words.len;
        struct answer found = ask(&bounded, 1 << 18);
        answer_free(&found);
    }
    text_free(&words);
}

static void write_reached(const char *path, const uint8_t *ample) {
    FILE *file = fopen(path, "wb");
    if (!file) perror(path), exit(1);
    for (ptrdiff_t i = 0; i < counters_end - counters; i++)
        fprintf(file, "%lx %d %d\n", (unsigned long)(places[2 * i] - (uintptr_t)&__executable_start), ample[i] != 0, counters[i] != 0);
    fclose(file);
}

int main(int count, char **words) {
    unsigned long stride = 0, cases = 0, refused = 0, turn = 0;
    const char *folder = NULL, *reached = NULL;
    int first = 1;
    double slowest = 0;
    for (; first + 1 < count && !strncmp(words[first], "--", 2); first += 2)
        if (!strcmp(words[first], "--refuse")) stride = strtoul(words[first + 1], NULL, 10);
        else if (!strcmp(words[first], "--keep")) folder = words[first + 1];
        else if (!strcmp(words[first], "--reached")) reached = words[first + 1];
        else return fprintf(stderr, "run: %s\n", words[first]), 2;
    uint8_t *ample = NULL;
    for (int pass = 0; pass < (stride ? 2 : 1); pass++) {
        for (int i = first; i < count; i++) {
            struct text all = read_file(words[i]);
            struct asked asked;
            size_t used;
            for (size_t at = 0; at < all.len; at += used) {
                if (!(used = case_read(all.at + at, all.len - at, &asked))) return fprintf(stderr, "run: %s has no case at %zu\n", words[i], at), 1;
                struct timespec begun, ended;
                clock_gettime(CLOCK_PROCESS_CPUTIME_ID, &begun);
                if (pass) refused += judge_heap(&asked, 1 + turn++ % stride, stride);
                else if (reached) ask_once(&asked), cases++;
                else judge(&asked, 8), cases++;
                clock_gettime(CLOCK_PROCESS_CPUTIME_ID, &ended);
                double took = (double)(ended.tv_sec - begun.tv_sec) + (double)(ended.tv_nsec - begun.tv_nsec) / 1e9;
                if (!pass && took > slowest) slowest = took;
                if (!pass && folder) keep(folder, &asked, cases);
            }
            text_free(&all);
        }
        if (!pass && counters) {
            ample = malloc((size_t)(counters_end - counters));
            if (!ample) return 1;
            memcpy(ample, counters, (size_t)(counters_end - counters));
        }
    }
    if (reached && ample) write_reached(reached, ample);
    printf("run: %lu cases, %lu growths refused, the slowest case in %.2f s\n", cases, refused, slowest);
    return 0;
}
