/* Gemzulat, the analyser of Stellar's quorum configurations, for C and C++: the answers of quorum_cli over files in memory.
 *
 * Link libquorum.a, or libquorum.so. Nothing is read, written or sent but the buffers of a call, and nothing is kept between two.
 * docs/LIBRARY.md says what is proved, and what the caller owes.
 */
#ifndef QUORUM_H
#define QUORUM_H

#include <stddef.h>
#include <stdint.h>

#ifdef __cplusplus
extern "C" {
#endif

/* How a question ended. */
typedef struct quorum_end {
    uint8_t status; /* what quorum_cli would end with, 0 to 10 */
    size_t text;    /* how many bytes the text has, the last ones of the room */
    size_t cert;    /* how many bytes the certificate has, the first ones of the room */
    size_t wanting; /* with status 7: how many bytes of room the answer fits, and none less; SIZE_MAX if no room helps. Else 0 */
} quorum_end;

/* Answers the words over the files, as quorum_cli does.
 *
 * The words are those of the command line without the program's name, a zero byte between two: "intersect\0config\0made". They name
 * the files config, orgs, script and cert, and a search makes the certificate made. A file that is not given is empty: NULL, 0.
 * The certificate is written to the front of the room, and the text to its end. If the room is too small for both, the status is 7.
 * The question is then worked on twice in the one call, the second time to measure the room that the answer wants.
 * With status 6, 7 or 8 there is no answer in the room, and text and cert are 0.
 *
 * The room and the end overlap no other buffer, and no buffer changes during the call. Calls on several threads may run at once.
 * Not to be called in a signal handler, or in a child that a process with threads has forked. */
void quorum_answer(const uint8_t *words, size_t words_len,
                   const uint8_t *config, size_t config_len,
                   const uint8_t *orgs, size_t orgs_len,
                   const uint8_t *script, size_t script_len,
                   const uint8_t *cert, size_t cert_len,
                   uint8_t *room, size_t room_len,
                   quorum_end *end);

#ifdef __cplusplus
}
#endif

#endif
