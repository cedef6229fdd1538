/* A caller in C: ask WORD..  answers as quorum_cli does, over the files that the words name in the current folder.
 *
 * The files are called config, orgs, script and cert, and what a search makes is written to made. ROOM, in the environment, is how
 * many bytes of room are given at first (67108864). */
#include "quorum.h"
#include <errno.h>
#include <stdio.h>
#include <stdlib.h>
#include <string.h>

typedef struct bytes {
    uint8_t *at;
    size_t len;
} bytes;

/* What the file holds; nothing if it is not there. */
static bytes read_file(const char *path) {
    bytes held = {NULL, 0};
    FILE *file = fopen(path, "rb");
    if (!file && errno == ENOENT) return held;
    if (!file || fseek(file, 0, SEEK_END) || (held.len = (size_t)ftell(file)) == (size_t)-1) exit(6);
    rewind(file);
    held.at = malloc(held.len + 1);
    if (!held.at || fread(held.at, 1, held.len, file) != held.len) exit(6);
    fclose(file);
    return held;
}

/* The words, with a zero byte between two. */
static bytes joined(int count, char **words) {
    bytes held = {NULL, 0};
    for (int i = 0; i < count; i++) held.len += strlen(words[i]) + (i > 0);
    uint8_t *at = held.at = malloc(held.len + 1);
    if (!at) exit(8);
    for (int i = 0; i < count; i++) {
        if (i > 0) *at++ = 0;
        memcpy(at, words[i], strlen(words[i]));
        at += strlen(words[i]);
    }
    return held;
}

static void write_file(const char *path, const uint8_t *at, size_t len) {
    FILE *file = fopen(path, "wb");
    if (!file || fwrite(at, 1, len, file) != len || fclose(file)) exit(7);
}

int main(int count, char **args) {
    bytes words = joined(count - 1, args + 1);
    bytes config = read_file("config"), orgs = read_file("orgs"), script = read_file("script"), cert = read_file("cert");
    size_t room_len = getenv("ROOM") ? strtoull(getenv("ROOM"), NULL, 10) : (size_t)1 << 26;
    quorum_end end;
    uint8_t *room;
    for (;;) {
        room = malloc(room_len ? room_len : 1);
        if (!room) return 8;
        quorum_answer(words.at, words.len, config.at, config.len, orgs.at, orgs.len, script.at, script.len,
                      cert.at, cert.len, room, room_len, &end);
        if (end.status != 7 || end.wanting == SIZE_MAX) break;
        /* So much room the same answer fits. */
        room_len = end.wanting;
        free(room);
    }
    if (end.cert) write_file("made", room, end.cert);
    fwrite(room + room_len - end.text, 1, end.text, stdout);
    return end.status;
}
