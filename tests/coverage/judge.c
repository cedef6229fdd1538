/* What is asked of each answer. */
#define _GNU_SOURCE
#include "cases.h"
#include <stdio.h>
#include <stdlib.h>
#include <string.h>

enum { ROOM = 1 << 18, MOST_BUDGET = 3000, USUAL_BUDGET = 300, MOST_TRIAL = 4 };
static const char *const searches[] = {"intersect", "dset", "splits", "blocking", "quorums", "least", "org-blocking", "trial"};
/* The options whose value is names, or ids of organisations. */
static const char *const named[] = {"--set", "--faulty", "--faulty-orgs", "--node", "--from"};

static bool begins(struct part it, const char *with) {
    return it.len >= strlen(with) && !memcmp(it.at, with, strlen(with));
}

static bool is(struct part it, const char *word) {
    return it.len == strlen(word) && begins(it, word);
}

static struct part part_of(const struct text *text) {
    struct part it = {text->at, text->len};
    return it;
}

/* Takes the part up to a byte off the rest; false if nothing is left. */
static bool next(struct part *rest, uint8_t end, struct part *it) {
    if (!rest->at) return false;
    const uint8_t *found = memchr(rest->at, end, rest->len);
    it->at = rest->at, it->len = found ? (size_t)(found - rest->at) : rest->len;
    rest->len -= it->len + (found != NULL), rest->at = found ? found + 1 : NULL;
    return true;
}

bool is_word(const struct asked *asked, const char *word) {
    struct part rest = asked->part[WORDS], it;
    return next(&rest, 0, &it) && is(it, word);
}

static bool is_search(const struct asked *asked) {
    for (size_t i = 0; i < sizeof searches / sizeof *searches; i++)
        if (is_word(asked, searches[i])) return true;
    return false;
}

bool option(const struct asked *asked, const char *name, struct part *value) {
    struct part rest = asked->part[WORDS], it;
    size_t len = strlen(name);
    while (next(&rest, 0, &it)) {
        if (!begins(it, name)) continue;
        if (it.len == len) return next(&rest, 0, value);
        if (it.at[len] == '=') {
            value->at = it.at + len + 1, value->len = it.len - len - 1;
            return true;
        }
    }
    return false;
}

static unsigned long number(struct part it) {
    unsigned long found = 0;
    for (size_t i = 0; i < it.len && i < 12; i++)
        if (it.at[i] >= '0' && it.at[i] <= '9') found = found * 10 + (unsigned long)(it.at[i] - '0');
    return found;
}

bool bound(const struct asked *asked, struct text *words) {
    struct part rest = asked->part[WORDS], it;
    text_add(words, rest.at, rest.len);
    if (!is_search(asked)) return true;
    if (is_word(asked, "trial"))
        for (bool first = true; next(&rest, 0, &it); first = false)
            if (!first && !begins(it, "-") && number(it) > MOST_TRIAL) return false;
    if (option(asked, "--budget", &it)) return number(it) <= MOST_BUDGET;
    text_say(words, "%c--budget=%d", 0, USUAL_BUDGET);
    return true;
}

/* ---- Texts that differ in names and digests alone */

static bool is_digest(struct part it) {
    for (size_t i = 0; i < it.len; i++)
        if (!((it.at[i] >= '0' && it.at[i] <= '9') || (it.at[i] >= 'a' && it.at[i] <= 'f'))) return false;
    return it.len == 64;
}

/* Whether the other word is this one with an 'x' before it, or before its name where it is that of a group. */
static bool is_renamed(struct part it, struct part other) {
    size_t before = begins(it, "org:") ? 4 : begins(it, "node:") ? 5 : 0;
    for (int i = 0; i < 2; i++, before = 0)
        if (other.len == it.len + 1 && other.at[before] == 'x' && !memcmp(it.at, other.at, before) && !memcmp(it.at + before, other.at + before + 1, it.len - before)) return true;
    return false;
}

static bool same_text(const struct text *one, const struct text *two, bool renames) {
    struct part lines = part_of(one), others = part_of(two), line, other, word, renamed;
    while (next(&lines, '\n', &line)) {
        if (!next(&others, '\n', &other)) return false;
        while (next(&line, ' ', &word)) {
            if (!next(&other, ' ', &renamed)) return false;
            bool same = word.len == renamed.len && !memcmp(word.at, renamed.at, word.len);
            if (!same && !(is_digest(word) && is_digest(renamed)) && !(renames && is_renamed(word, renamed))) return false;
        }
        if (other.at) return false;
    }
    return !others.at;
}

static void same(const struct asked *asked, const struct answer *one, const struct asked *changed, bool renames, const char *what) {
    struct answer two = ask(changed, 2 * ROOM);
    if (one->end.status != two.end.status) wrong(asked, "%s the status is %d and not %d", what, two.end.status, one->end.status);
    if (!same_text(&one->text, &two.text, renames)) wrong(asked, "%s the text is another: %.*s", what, (int)two.text.len, two.text.at);
    if (!same_text(&one->cert, &two.cert, renames)) wrong(asked, "%s the certificate is another: %.*s", what, (int)two.cert.len, two.cert.at);
    answer_free(&two);
}

/* The certificate, in which the digests of a file are replaced by those of another. */
static void refitted(struct text *to, struct part cert, const char *begin, struct part old, struct part new) {
    char was[65], is_now[65];
    digest(was, old.at, old.len);
    digest(is_now, new.at, new.len);
    struct part line;
    while (next(&cert, '\n', &line)) {
        if (begins(line, begin) && line.len == strlen(begin) + 64 && !memcmp(line.at + strlen(begin), was, 64)) text_say(to, "%s%s", begin, is_now);
        else text_add(to, line.at, line.len);
        if (cert.at) text_add(to, "\n", 1);
    }
}

/* ---- JSON, of which it is known that it is some */

static size_t blanks(struct part it, size_t at) {
    while (at < it.len && strchr(" \t\r\n", it.at[at]) && it.at[at]) at++;
    return at;
}

static size_t past_string(struct part it, size_t at) {
    for (at++; at < it.len && it.at[at] != '"'; at++)
        if (it.at[at] == '\\') at++;
    return at + 1;
}

/* Past the value that begins here. */
static size_t past_value(struct part it, size_t at) {
    int depth = 0;
    while (at < it.len) {
        uint8_t c = it.at[at];
        if (c == '"') at = past_string(it, at);
        else if ((c == ',' || c == ']' || c == '}') && !depth) return at;
        else depth += (c == '[' || c == '{') - (c == ']' || c == '}'), at++;
    }
    return at;
}

/* The elements of the array in the other order, each with one more member where it is an object and that is wanted. */
static bool rearranged(struct text *to, struct part it, bool reverses, bool adds) {
    size_t at = blanks(it, 0), count = 0;
    static struct part elements[4096];
    if (at >= it.len || it.at[at] != '[') return false;
    for (at++; blanks(it, at) < it.len && it.at[blanks(it, at)] != ']'; at += at < it.len && it.at[at] == ',') {
        size_t end = past_value(it, at);
        if (count == sizeof elements / sizeof *elements || end <= at) return false;
        elements[count].at = it.at + at, elements[count++].len = end - at;
        at = end;
    }
    text_add(to, "[", 1);
    for (size_t i = 0; i < count; i++) {
        struct part element = elements[reverses ? count - 1 - i : i];
        size_t begin = blanks(element, 0);
        if (i) text_add(to, ",", 1);
        if (adds && begin < element.len && element.at[begin] == '{') {
            bool empty = blanks(element, begin + 1) < element.len && element.at[blanks(element, begin + 1)] == '}';
            text_say(to, "{\"skipped\":[{\"publicKey\":null},-1.5]%s", empty ? "" : ",");
            begin++;
        }
        text_add(to, element.at + begin, element.len - begin);
    }
    text_add(to, "]", 1);
    return true;
}

/* Puts an 'x' before each string that is a value. Not for files with escapes, or with a string that may not grow. */
static bool with_new_names(struct text *to, struct part it) {
    if (!it.len) return true;
    if (memchr(it.at, '\\', it.len)) return false;
    for (size_t at = 0; at < it.len;) {
        size_t end = it.at[at] == '"' ? past_string(it, at) : at + 1;
        if (end > it.len) return false;
        size_t after = blanks(it, end);
        bool is_value = it.at[at] == '"' && !(after < it.len && it.at[after] == ':');
        if (is_value && (end - at == 2 || end - at > 129)) return false;
        text_add(to, it.at + at, 1);
        if (is_value) text_add(to, "x", 1);
        text_add(to, it.at + at + 1, end - at - 1);
        at = end;
    }
    return true;
}

/* Names between separators, each of which is one already. */
static bool with_new_list(struct text *to, struct part list, uint8_t between, bool of_groups) {
    struct part name;
    if (!list.len) return true;
    for (bool first = true; next(&list, between, &name); first = false) {
        if (!name.len || name.len > 127) return false;
        if (!first) text_add(to, &between, 1);
        size_t before = !of_groups ? 0 : begins(name, "org:") ? 4 : begins(name, "node:") ? 5 : 0;
        /* (a name that is that of no group would come to stand after those that are) */
        if (of_groups && !before) return false;
        text_add(to, name.at, before);
        text_add(to, "x", 1);
        text_add(to, name.at + before, name.len - before);
    }
    return true;
}

static bool with_new_words(struct text *to, struct part words) {
    struct part it;
    bool is_value = false, is_list = false;
    for (bool first = true; next(&words, 0, &it); first = false) {
        if (!first) text_add(to, "", 1);
        struct part value = it;
        if (!is_value) {
            if (is(it, "--")) return false;
            for (size_t i = 0; i < sizeof named / sizeof *named; i++) {
                size_t len = strlen(named[i]);
                if (!begins(it, named[i]) || (it.len > len && it.at[len] != '=')) continue;
                is_list = i < 3;
                if (it.len == len) is_value = true, text_add(to, it.at, len);
                else {
                    text_add(to, it.at, len + 1);
                    value.at = it.at + len + 1, value.len = it.len - len - 1;
                    if (!with_new_list(to, value, is_list ? ',' : 0, false)) return false;
                }
                value.at = NULL;
                break;
            }
            if (value.at) text_add(to, it.at, it.len);
            continue;
        }
        if (begins(value, "-") || !with_new_list(to, value, is_list ? ',' : 0, false)) return false;
        is_value = false;
    }
    return true;
}

static bool with_new_script(struct text *to, struct part script) {
    static const char *const edits[] = {"threshold", "add", "drop", "declare", "retire"};
    struct part line, word;
    while (next(&script, '\n', &line)) {
        bool is_edit = false, names_last = false;
        for (int at = 0; next(&line, ' ', &word); at++) {
            if (at) text_add(to, " ", 1);
            if (!at)
                for (int i = 0; i < 5; i++)
                    if (is(word, edits[i])) is_edit = true, names_last = i == 1 || i == 2;
            if ((is_edit && at == 1) || (names_last && at == 3)) {
                if (!with_new_list(to, word, 0, false) || !word.len) return false;
            } else text_add(to, word.at, word.len);
        }
        if (script.at) text_add(to, "\n", 1);
    }
    return true;
}

static bool with_new_cert(struct text *to, struct part cert) {
    static const char *const begin[] = {"from ", "faulty ", "first ", "second ", "q ", "s ", "b "};
    struct part line;
    bool of_groups = false;
    while (next(&cert, '\n', &line)) {
        size_t names = 0;
        int found = -1;
        if (begins(line, "kind ") && memmem(line.at, line.len, "org-blocking", 12)) of_groups = true;
        for (int i = 0; i < 7; i++)
            if (begins(line, begin[i])) names = strlen(begin[i]), found = i;
        if (found >= 4) {
            while (names < line.len && line.at[names] != ' ') names++;
            names += names < line.len;
        }
        text_add(to, line.at, names);
        struct part rest = {line.at + names, line.len - names};
        if (found < 0) text_add(to, rest.at, rest.len);
        else if ((names && !rest.len && line.at[names - 1] == ' ') || !with_new_list(to, rest, ' ', of_groups && found == 6)) return false;
        if (cert.at) text_add(to, "\n", 1);
    }
    return true;
}

/* ---- The questions */

static void judge_rearranged(const struct asked *asked, const struct answer *found, bool reverses, bool adds, const char *what) {
    struct text config = {0}, cert = {0};
    if (rearranged(&config, asked->part[CONFIG], reverses, adds)) {
        struct asked changed = *asked;
        changed.part[CONFIG] = part_of(&config);
        refitted(&cert, asked->part[CERT], "config ", asked->part[CONFIG], changed.part[CONFIG]);
        changed.part[CERT] = part_of(&cert);
        same(asked, found, &changed, false, what);
    }
    text_free(&config);
    text_free(&cert);
}

static void judge_renamed(const struct asked *asked, const struct answer *found) {
    struct text to[PARTS] = {{0}};
    struct text cert = {0}, again = {0};
    struct asked changed = *asked;
    if (with_new_words(&to[WORDS], asked->part[WORDS]) && with_new_names(&to[CONFIG], asked->part[CONFIG]) && with_new_names(&to[ORGS], asked->part[ORGS])
        && with_new_script(&to[SCRIPT], asked->part[SCRIPT])
        && (is_word(asked, "check-lrat") ? (text_add(&cert, asked->part[CERT].at, asked->part[CERT].len), true) : with_new_cert(&cert, asked->part[CERT]))) {
        for (int i = 0; i < CERT; i++) changed.part[i] = part_of(&to[i]);
        refitted(&again, part_of(&cert), "config ", asked->part[CONFIG], changed.part[CONFIG]);
        refitted(&to[CERT], part_of(&again), "orgs ", asked->part[ORGS], changed.part[ORGS]);
        changed.part[CERT] = part_of(&to[CERT]);
        same(asked, found, &changed, true, "with an x before each name");
    }
    for (int i = 0; i < PARTS; i++) text_free(&to[i]);
    text_free(&cert);
    text_free(&again);
}

/* The lines of a certificate after that of its kind, without the end. */
static struct part body(const struct text *cert) {
    struct part rest = part_of(cert), line;
    for (int i = 0; i < 5; i++) next(&rest, '\n', &line);
    if (rest.at && rest.len >= 4) rest.len -= 4;
    return rest;
}

static void judge_budget(const struct asked *asked, const struct answer *found) {
    struct part value;
    struct text words = {0};
    if (!option(asked, "--budget", &value)) return;
    struct part all = asked->part[WORDS];
    text_add(&words, all.at, (size_t)(value.at - all.at));
    text_say(&words, "%lu", number(value) + 1);
    text_add(&words, value.at + value.len, (size_t)(all.at + all.len - value.at) - value.len);
    struct asked changed = *asked;
    changed.part[WORDS] = part_of(&words);
    struct answer more = ask(&changed, 2 * ROOM);
    struct part one = body(&found->cert), two = body(&more.cert);
    if (more.end.status > 2) wrong(asked, "with one unit more the status is %d", more.end.status);
    if (more.cert.len && !memmem(more.cert.at, more.cert.len, "kind pair", 9) && (one.len > two.len || memcmp(one.at, two.at, one.len)))
        wrong(asked, "with one unit more the certificate begins otherwise");
    answer_free(&more);
    text_free(&words);
}

/* A certificate that a search made is accepted, and without its last byte or with one more it is refused. */
static void judge_made(const struct asked *asked, const struct answer *found) {
    static const char with_orgs[] = "check\0config\0cert\0--orgs=orgs", without[] = "check\0config\0cert";
    struct asked check = *asked;
    bool has_orgs = is_word(asked, "org-blocking"), is_part = memmem(found->cert.at, found->cert.len, "kind partial", 12) != NULL;
    check.part[WORDS].at = (const uint8_t *)(has_orgs ? with_orgs : without), check.part[WORDS].len = has_orgs ? sizeof with_orgs - 1 : sizeof without - 1;
    check.part[CERT] = part_of(&found->cert);
    struct answer said = ask(&check, ROOM);
    if (said.end.status != (is_part ? 2 : 0)) wrong(asked, "the certificate is answered by %d: %.*s", said.end.status, (int)said.text.len, said.text.at);
    if (is_part != (found->end.status == 2) && !is_word(asked, "dset")) wrong(asked, "status %d with this kind of certificate", found->end.status);
    answer_free(&said);
    check.part[CERT].len--;
    said = ask(&check, ROOM);
    if (said.end.status != 5) wrong(asked, "without its last byte the certificate is answered by %d", said.end.status);
    answer_free(&said);
}

/* A room of one byte less than wanted has nothing. */
static void judge_room(const struct asked *asked, const struct answer *found) {
    size_t wanted = found->text.len + found->cert.len;
    struct answer less = ask(asked, wanted - 1), enough = ask(asked, wanted);
    if (less.end.status != 7 || less.end.wanting > wanted) wrong(asked, "in a room of %zu the status is %d, and %zu are wanted", wanted - 1, less.end.status, less.end.wanting);
    if (enough.end.status != found->end.status) wrong(asked, "in a room of %zu the status is %d", wanted, enough.end.status);
    answer_free(&less);
    answer_free(&enough);
}

void judge(const struct asked *given, unsigned share) {
    struct text words = {0};
    struct asked asked = *given;
    static unsigned turn;
    if (!bound(given, &words)) {
        text_free(&words);
        return;
    }
    asked.part[WORDS] = part_of(&words);
    struct answer found = ask(&asked, ROOM), again = ask(&asked, ROOM);
    int status = found.end.status;
    if (status == 8) wrong(&asked, "there is not enough memory");
    if (again.end.status != status || again.end.wanting != found.end.wanting || again.text.len != found.text.len || again.cert.len != found.cert.len
        || memcmp(again.text.at, found.text.at, found.text.len) || memcmp(again.cert.at, found.cert.at, found.cert.len)) wrong(&asked, "the second answer is another");
    if ((status == 6 || status == 7 || status == 8) != !found.text.len) wrong(&asked, "status %d with %zu bytes of text", status, found.text.len);
    if (found.cert.len && (status > 2 || !is_search(&asked))) wrong(&asked, "status %d with a certificate", status);
    bool is_refused_file = status == 4 || (found.text.len >= 16 && memmem(found.text.at, found.text.len, "digest ", 7));
    if (found.cert.len && !is_word(&asked, "trial")) judge_made(&asked, &found);
    if (status == 2 && found.cert.len && !is_word(&asked, "trial") && turn++ % 8 < share) judge_budget(&asked, &found);
    /* (a search that is to write a file of another name than 'made' gives back no certificate, and needs the room for it all the same) */
    bool is_elsewhere = is_search(&asked) && status <= 2 && !found.cert.len;
    if (found.text.len && !is_elsewhere && turn++ % 8 < share) judge_room(&asked, &found);
    if (!is_refused_file && status != 3 && status != 6 && status != 7) {
        if (turn++ % 8 < share) judge_renamed(&asked, &found);
        if (turn++ % 8 < share && !is_word(&asked, "trial")) judge_rearranged(&asked, &found, true, false, "with the elements turned round");
        if (turn++ % 8 < share && !is_word(&asked, "trial")) judge_rearranged(&asked, &found, false, true, "with a member that is skipped");
    }
    answer_free(&found);
    answer_free(&again);
    text_free(&words);
}

unsigned long judge_heap(const struct asked *given, unsigned long first, unsigned long stride) {
    struct text words = {0};
    struct asked asked = *given;
    unsigned long refused = 0;
    if (!bound(given, &words)) return 0;
    asked.part[WORDS] = part_of(&words);
    heap_begin(1, 0);
    struct answer ample = ask(&asked, ROOM);
    unsigned long all = heap_growths();
    for (unsigned long at = first; at <= all; at += stride, refused++)
        for (int later = 0; later < 2; later++) {
            heap_begin(at, later ? ~0ul : at);
            struct answer found = ask(&asked, ROOM);
            bool same_answer = found.end.status == ample.end.status && found.text.len == ample.text.len && found.cert.len == ample.cert.len
                && !memcmp(found.text.at, ample.text.at, ample.text.len) && !memcmp(found.cert.at, ample.cert.at, ample.cert.len);
            heap_begin(1, 0);
            if (found.end.status != 8 && !same_answer) wrong(&asked, "with growth %lu of %lu refused the status is %d", at, all, found.end.status);
            answer_free(&found);
        }
    answer_free(&ample);
    text_free(&words);
    return refused;
}
