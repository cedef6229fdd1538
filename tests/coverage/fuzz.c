/* Changes cases for libFuzzer, in such a way that what lies behind the first refusals is reached.
 *
 * COVERAGE_TARGET, in the environment, names the part that is changed: config, orgs, script, words, lrat, search, or cert for the rest.
 * A changed certificate mostly has the digests of its files, and ids that rise; sometimes it is made anew by a search. */
#define _GNU_SOURCE
#include "cases.h"
#include <stdio.h>
#include <stdlib.h>
#include <string.h>

enum { MOST_BYTES = 16384 };

size_t LLVMFuzzerMutate(uint8_t *at, size_t len, size_t most);
size_t LLVMFuzzerCustomMutator(uint8_t *data, size_t size, size_t most, unsigned seed);
size_t LLVMFuzzerCustomCrossOver(const uint8_t *one, size_t one_len, const uint8_t *two, size_t two_len, uint8_t *out, size_t most, unsigned seed);
int LLVMFuzzerTestOneInput(const uint8_t *data, size_t size);

static uint64_t state = 1;

static size_t below(size_t bound) {
    state ^= state << 13, state ^= state >> 7, state ^= state << 17;
    return bound ? (size_t)(state >> 11) % bound : 0;
}

static const char *const edges[] = {"0", "1", "2", "3", "-1", "-2", "-0", "+1", "01", "32", "33", "127", "128", "16384", "2147483647", "-2147483647",
    "2147483648", "9223372036854775807", "9223372036854775808", "18446744073709551615", "18446744073709551616", "d", "x", ""};
static const char *const json[] = {"null", "{}", "[]", "\"a\"", "\"\\u0061\"", "\"b\"", "\"\"", "1e0", "1e400", "\"a,b\"", "{\"threshold\":1}",
    "{\"threshold\":2,\"validators\":[\"a\",\"b\",\"c\"]}", "{\"publicKey\":\"d\"}", "{\"id\":\"A\",\"validators\":[\"a\"]}", "\"\\ud83d\\ude00\""};
static const char *const members[] = {"\"publicKey\":", "\"quorumSet\":", "\"threshold\":", "\"validators\":", "\"innerQuorumSets\":", "\"id\":"};
static const char *const lines[] = {"end", "kind pair", "kind refutation", "kind partial", "kind blocking", "kind partial-blocking", "kind quorums",
    "kind partial-quorums", "kind least", "kind partial-least", "kind org-blocking", "kind partial-org-blocking", "fbas-cert 1", "fbas-cert 2", "from", "from a",
    "faulty", "faulty a", "first a", "second b", "q 1 a b", "b 2 a", "s 3 a b", "b 2 org:A", "b 2 node:a", "13 0 1 2 0", "13 d 1 0", "13 1 0 -2 3 0", "formula 6 12", "counter 9 9"};
static const char *const edits[] = {"threshold a . 1", "threshold b . 0", "add a . c", "add b .0 x", "drop a . b", "declare d", "declare a", "retire a", "retire c", "threshold a .0.1 2"};
static const char *const options[] = {"--set=a", "--set", "a,b", "--faulty=a", "--faulty", "--faulty-orgs=A", "--orgs=orgs", "--from=a", "--node=a", "--node", "a",
    "--budget=1", "--budget=7", "--budget=60", "--", "-", "config", "cert", "made", "script", "orgs", "show", "closure", "greatest", "available", "dset", "blocks", "vblocks",
    "splits", "intersect", "blocking", "quorums", "least", "org-blocking", "check", "check-lrat", "export", "whatif", "trial", "2"};
#define ONE_OF(list) list[below(sizeof(list) / sizeof *(list))]

/* Replaces bytes of the text. */
static void cut(struct text *text, size_t from, size_t to, const void *new, size_t len) {
    struct text made = {0};
    text_add(&made, text->at, from);
    text_add(&made, new, len);
    text_add(&made, text->at + to, text->len - to);
    text_free(text);
    *text = made;
}

/* A place of one of the bytes; the end where there is none. */
static size_t place(const struct text *text, const char *bytes) {
    size_t at = below(text->len + 1);
    for (size_t i = 0; i < text->len; i++) {
        size_t here = (at + i) % text->len;
        if (text->at[here] && strchr(bytes, text->at[here])) return here;
    }
    return text->len;
}

static void change_bytes(struct text *text) {
    uint8_t *room = malloc(text->len + 256);
    if (!room) abort();
    if (text->len) memcpy(room, text->at, text->len);
    size_t len = LLVMFuzzerMutate(room, text->len, text->len + 256);
    text->len = 0;
    text_add(text, room, len);
    free(room);
}

/* ---- JSON: whole values are left out, doubled, replaced by one another, by a number or by a text */

static size_t end_of_value(const struct text *text, size_t at) {
    int depth = 0;
    for (bool quoted = false; at < text->len; at++) {
        uint8_t c = text->at[at];
        if (quoted) at += c == '\\', quoted = c != '"';
        else if (c == '"') quoted = true;
        else if ((c == ',' || c == ']' || c == '}') && !depth) return at;
        else depth += (c == '[' || c == '{') - (c == ']' || c == '}');
    }
    return text->len;
}

static void change_json(struct text *text) {
    size_t from = place(text, "[,:{"), other = place(text, "[,:");
    from += from < text->len, other += other < text->len;
    size_t to = end_of_value(text, from), end = end_of_value(text, other);
    struct text piece = {0};
    text_add(&piece, text->at + other, end - other);
    switch (below(9)) {
    case 0: cut(text, from, to + (to < text->len && text->at[to] == ','), "", 0); break;
    case 1: text_add(&piece, ",", 1), cut(text, other, other, piece.at, piece.len); break;
    case 2: cut(text, from, to, piece.at, piece.len); break;
    case 3: { const char *it = ONE_OF(json); cut(text, from, to, it, strlen(it)); break; }
    case 4: { const char *it = ONE_OF(edges); cut(text, from, to, it, strlen(it)); break; }
    case 5: case 6: {
        size_t at = place(text, "0123456789");
        if (at < text->len) text->at[at] = (uint8_t)('0' + below(10));
        break;
    }
    case 7: {
        size_t at = place(text, "abcdefgABC");
        if (at < text->len) text->at[at] = text->at[at] < 'a' ? (uint8_t)('A' + below(4)) : (uint8_t)('a' + below(7));
        break;
    }
    default: {
        size_t at = place(text, "{");
        struct text member = {0};
        text_say(&member, "%s%s,", ONE_OF(members), ONE_OF(json));
        if (at < text->len) cut(text, at + 1, at + 1, member.at, member.len);
        text_free(&member);
    }
    }
    text_free(&piece);
}

/* ---- Lines, and their words */

static size_t line_begin(const struct text *text, size_t at) {
    while (at > 0 && text->at[at - 1] != '\n') at--;
    return at;
}

static size_t past_line(const struct text *text, size_t at) {
    while (at < text->len && text->at[at] != '\n') at++;
    return at + (at < text->len);
}

static void change_lines(struct text *text, bool of_script) {
    size_t from = line_begin(text, below(text->len + 1)), to = past_line(text, from), other = line_begin(text, below(text->len + 1)), end = past_line(text, other);
    struct text piece = {0};
    text_add(&piece, text->at + other, end - other);
    switch (below(10)) {
    case 0: cut(text, from, to, "", 0); break;
    case 1: cut(text, from, from, piece.at, piece.len); break;
    case 2: cut(text, from, to, piece.at, piece.len); break;
    case 3: {
        piece.len = 0;
        text_say(&piece, "%s\n", of_script ? ONE_OF(edits) : ONE_OF(lines));
        cut(text, from, below(2) ? from : to, piece.at, piece.len);
        break;
    }
    default: {
        /* a word for another of the text, for one at an edge, or by one more or less */
        size_t word = place(text, " \n"), taken = place(text, " ");
        word += word < text->len, taken += taken < text->len;
        size_t stop = word, last = taken;
        while (stop < text->len && text->at[stop] != ' ' && text->at[stop] != '\n') stop++;
        while (last < text->len && text->at[last] != ' ' && text->at[last] != '\n') last++;
        piece.len = 0;
        size_t kind = below(8);
        if (kind < 3) text_add(&piece, text->at + taken, last - taken);
        else if (kind == 3) text_say(&piece, "%s", ONE_OF(edges));
        else if (kind == 4) text_add(&piece, text->at + word, stop - word), text_add(&piece, " ", 1), text_add(&piece, text->at + taken, last - taken);
        else if (kind == 5) text_say(&piece, "-"), text_add(&piece, text->at + word, stop - word);
        else if (kind == 6 && stop < text->len) stop++;
        else {
            struct text held = {0};
            text_add(&held, text->at + word, stop - word);
            text_add(&held, "", 1);
            char *rest;
            long long found = strtoll((char *)held.at, &rest, 10);
            if (!*rest && stop > word && found < (1ll << 62) && found > -(1ll << 62)) text_say(&piece, "%lld", found + (below(2) ? 1 : -1));
            else text_add(&piece, held.at, held.len - 1), piece.len -= piece.len > 1, text_say(&piece, "%c", 'a' + (int)below(5));
            text_free(&held);
        }
        cut(text, word, stop, piece.at, piece.len);
    }
    }
    text_free(&piece);
}

static void change_words(struct text *text) {
    size_t from = below(text->len + 1);
    while (from > 0 && text->at[from - 1]) from--;
    size_t to = from;
    while (to < text->len && text->at[to]) to++;
    const char *word = ONE_OF(options);
    struct text piece = {0};
    text_add(&piece, word, strlen(word));
    switch (below(5)) {
    case 0: cut(text, from, to + (to < text->len), "", 0); break;
    case 1: text_add(&piece, "", 1), cut(text, from, from, piece.at, piece.len); break;
    case 2: cut(text, from, to, piece.at, piece.len); break;
    case 3: cut(text, text->len, text->len, "", 1), text_add(text, piece.at, piece.len); break;
    default: {
        size_t at = place(text, "abcdefg0123456789");
        if (at < text->len) text->at[at] = text->at[at] < 'a' ? (uint8_t)('0' + below(10)) : (uint8_t)('a' + below(7));
    }
    }
    text_free(&piece);
}

/* ---- Certificates that fit */

static void fit_line(struct text *cert, const char *begin, const struct text *file) {
    size_t len = strlen(begin);
    for (size_t at = 0; at < cert->len; at = past_line(cert, at))
        if (cert->len - at > len && !memcmp(cert->at + at, begin, len)) {
            struct text made = {0};
            char digits[65];
            digest(digits, file->at, file->len);
            text_say(&made, "%s%s\n", begin, digits);
            cut(cert, at, past_line(cert, at), made.at, made.len);
            text_free(&made);
            return;
        }
}

enum { MOST_IDS = 4096 };
static long long old_ids[MOST_IDS], new_ids[MOST_IDS];
static size_t id_count;

static long long new_id(long long old) {
    long long size = old < 0 ? -old : old;
    for (size_t i = id_count; i-- > 0;)
        if (old_ids[i] == size) return old < 0 ? -new_ids[i] : new_ids[i];
    return old;
}

/* Gives the lines rising ids, from the last of the formula on, and their hints what these were before. */
static void number_anew(struct text *cert) {
    struct text made = {0};
    long long last = 0, found, second;
    int read;
    id_count = 0;
    text_add(cert, "", 1), cert->len--;
    for (size_t at = 0; at < cert->len; at = past_line(cert, at)) {
        char line[2048], letter;
        size_t len = past_line(cert, at) - at;
        bool is_sized = len < sizeof line;
        if (is_sized) memcpy(line, cert->at + at, len), line[len] = 0;
        if (is_sized && (sscanf(line, "formula %lld %lld", &found, &second) == 2 || sscanf(line, "counter %lld %lld", &found, &second) == 2)) last = second;
        bool is_set = is_sized && sscanf(line, "%c %lld%n", &letter, &found, &read) == 2 && strchr("qbs", letter) && found > 0;
        bool is_step = is_sized && !is_set && sscanf(line, "%lld%n", &found, &read) == 1 && found > 0;
        if ((!is_set && !is_step) || id_count == MOST_IDS || last >= 1ll << 40) {
            text_add(&made, cert->at + at, len);
            continue;
        }
        char *rest = line + read;
        bool is_deletion = is_step && !strncmp(rest, " d ", 3);
        if (is_deletion) text_say(&made, "%lld d", last), rest += 2;
        else if (is_set) text_say(&made, "%c %lld%s", letter, last + 1, rest);
        else text_say(&made, "%lld", last + 1);
        for (int zeros = is_deletion; is_step && *rest;) {
            char *end;
            while (*rest == ' ') rest++;
            long long word = strtoll(rest, &end, 10);
            if (end == rest) break;
            text_say(&made, " %lld", zeros ? new_id(word) : word);
            zeros += word == 0;
            rest = end;
        }
        if (is_step) text_add(&made, rest, strlen(rest));
        if (!is_deletion) old_ids[id_count] = found, new_ids[id_count++] = ++last;
    }
    text_free(cert);
    *cert = made;
}

/* The certificate of a search over the files, in the place of that which is there. */
static void search_anew(struct text part[PARTS], size_t kind) {
    static const char *const commands[] = {"intersect", "blocking", "quorums", "least", "org-blocking", "splits"};
    struct text words = {0};
    struct asked asked;
    text_say(&words, "%s%cconfig%cmade%c--budget=%d", commands[kind], 0, 0, 0, below(3) ? 200 : (int)below(12));
    if (kind == 4) text_say(&words, "%c--orgs=orgs", 0);
    if (kind == 5 || !below(4)) text_say(&words, "%c--%s=%c", 0, kind == 5 ? "set" : "faulty", 'a' + (int)below(3));
    if (!below(5)) text_say(&words, "%c--from=%c", 0, 'a' + (int)below(3));
    for (int i = 0; i < PARTS; i++) asked.part[i].at = part[i].at, asked.part[i].len = i == CERT ? 0 : part[i].len;
    asked.part[WORDS].at = words.at, asked.part[WORDS].len = words.len;
    struct answer found = ask(&asked, 1 << 16);
    if (found.cert.len && found.cert.len < MOST_BYTES / 2) {
        part[CERT].len = 0;
        text_add(&part[CERT], found.cert.at, found.cert.len);
    }
    answer_free(&found);
    text_free(&words);
}

static void set_words(struct text *words, const char *at, size_t len) {
    words->len = 0;
    text_add(words, at, len);
}

static void change(struct text part[PARTS], const char *target) {
    static const char check[] = "check\0config\0cert", with_orgs[] = "check\0config\0cert\0--orgs=orgs";
    bool of_groups = !strcmp(target, "groups"), is_lrat = !strcmp(target, "lrat");
    if (!strcmp(target, "config")) below(6) ? change_json(&part[CONFIG]) : change_words(&part[WORDS]);
    else if (!strcmp(target, "orgs")) below(3) ? change_json(&part[below(4) ? ORGS : CONFIG]) : change_words(&part[WORDS]);
    else if (!strcmp(target, "script")) below(6) ? change_lines(&part[SCRIPT], true) : change_json(&part[CONFIG]);
    else if (!strcmp(target, "words")) change_words(&part[WORDS]);
    else if (!strcmp(target, "search")) below(3) ? change_json(&part[below(6) ? CONFIG : ORGS]) : change_words(&part[WORDS]);
    else {
        size_t kind = !strcmp(target, "least") ? 3 : of_groups ? 4 : !strcmp(target, "list") ? 1 + below(2) : below(2) ? 0 : 5;
        if (below(8)) change_lines(&part[CERT], false);
        else change_json(&part[of_groups && below(3) ? ORGS : CONFIG]);
        if (is_lrat) {
            if (!below(3)) number_anew(&part[CERT]);
            return;
        }
        if (!below(12)) search_anew(part, kind), change_lines(&part[CERT], false);
        if (below(2)) number_anew(&part[CERT]);
        if (below(10)) fit_line(&part[CERT], "config ", &part[CONFIG]), fit_line(&part[CERT], "orgs ", &part[ORGS]);
        if (of_groups) set_words(&part[WORDS], with_orgs, sizeof with_orgs - 1);
        else set_words(&part[WORDS], check, sizeof check - 1);
    }
}

static const char *target_of(void) {
    static const char *target;
    if (!target) target = getenv("COVERAGE_TARGET");
    return target ? target : "config";
}

/* The part of which bytes are changed. */
static int part_of_target(void) {
    static const char *const names[] = {"words", "config", "orgs", "script"};
    for (int i = 0; i < CERT; i++)
        if (!strcmp(target_of(), names[i])) return i;
    return strcmp(target_of(), "search") ? CERT : CONFIG;
}

static size_t put_back(struct text part[PARTS], uint8_t *data, size_t size, size_t most) {
    struct text made = {0};
    struct asked asked;
    for (int i = 0; i < PARTS; i++) asked.part[i].at = part[i].at, asked.part[i].len = part[i].len;
    case_write(&made, &asked);
    if (made.len <= most) memcpy(data, made.at, made.len), size = made.len;
    text_free(&made);
    for (int i = 0; i < PARTS; i++) text_free(&part[i]);
    return size;
}

size_t LLVMFuzzerCustomMutator(uint8_t *data, size_t size, size_t most, unsigned seed) {
    struct asked asked = {0};
    struct text part[PARTS] = {{0}};
    state = (uint64_t)seed * 0x9e3779b97f4a7c15u + 1;
    case_read(data, size, &asked);
    for (int i = 0; i < PARTS; i++) text_add(&part[i], asked.part[i].at, asked.part[i].len);
    for (size_t times = 1 + below(4); times > 0; times--)
        if (below(6)) change(part, target_of());
        else change_bytes(&part[part_of_target()]);
    return put_back(part, data, size, most);
}

/* Parts of the one, and of the other. */
size_t LLVMFuzzerCustomCrossOver(const uint8_t *one, size_t one_len, const uint8_t *two, size_t two_len, uint8_t *out, size_t most, unsigned seed) {
    struct asked first, second;
    struct text part[PARTS] = {{0}};
    state = (uint64_t)seed * 0x9e3779b97f4a7c15u + 1;
    if (!case_read(one, one_len, &first) || !case_read(two, two_len, &second)) return 0;
    for (int i = 0; i < PARTS; i++) {
        struct part it = below(2) ? first.part[i] : second.part[i];
        text_add(&part[i], it.at, it.len);
    }
    fit_line(&part[CERT], "config ", &part[CONFIG]);
    fit_line(&part[CERT], "orgs ", &part[ORGS]);
    return put_back(part, out, 0, most);
}

int LLVMFuzzerTestOneInput(const uint8_t *data, size_t size) {
    struct asked asked;
    if (size && size <= MOST_BYTES && case_read(data, size, &asked) == size) judge(&asked, 1);
    return 0;
}
