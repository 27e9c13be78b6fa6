/* Settled spellings, for callers in C and C++. Link with target/staticlib/libspelling.a,
   which `tools/build spelling` proves and builds. */
#ifndef SPELLING_H
#define SPELLING_H

#include <stddef.h>
#include <stdint.h>

#ifdef __cplusplus
extern "C" {
#endif

#define SPELLING_TEXT_MAX 120   /* the most bytes that a text may have */
#define SPELLING_SETTLED_MAX 40 /* the most bytes of a settled text, and the least room of an output buffer */

/* Why a text was refused. The answer of spelling_settle is minus this number. */
enum spelling_refusal {
    SPELLING_TEXT_TOO_LONG = 1,    /* the text has more than 120 bytes */
    SPELLING_BYTE_NOT_ALLOWED = 2, /* a byte of the text is outside 0x20 to 0x7E */
    SPELLING_SETTLED_EMPTY = 3,    /* the text settles to nothing */
    SPELLING_SETTLED_TOO_LONG = 4, /* the text settles to more than 40 bytes */
    SPELLING_BUFFER_TOO_SHORT = 8  /* the output buffer has fewer than 40 bytes, however short the settled text is */
};

/* Settles the text_len bytes at text into the out_len bytes at out.

   Settling: A to Z become a to z, each backslash becomes a slash, each run of slashes becomes one
   slash, and slashes at either end are dropped. All other bytes stay, the space among them.

   Granted: the settled text stands at the front of out, the rest of out is untouched, and the answer
   is the settled text's length, 1 to 40. No 0 byte is added.
   Refused: out is untouched, and the answer is minus the refusal's number. Where several refusals
   apply, it is the lowest number.

   The caller sees to this:
   - Neither pointer is NULL. For a length of 0 pass any valid pointer; nothing is read or written there.
   - text_len bytes can be read at text, and out_len bytes can be read and written at out.
   - The two buffers do not overlap, and nothing else writes to them during the call.

   The text is not changed and needs no 0 byte at its end. The function keeps no state and allocates
   nothing, so that any number of threads may call it at once.

       const char *text = "//Depot\\Art//Rock.FBX/";
       uint8_t name[SPELLING_SETTLED_MAX];
       int32_t len = spelling_settle((const uint8_t *)text, strlen(text), name, sizeof name);

   len is 18, and name begins with the 18 bytes of "depot/art/rock.fbx". For "/" the answer is
   -SPELLING_SETTLED_EMPTY, that is -3. */
int32_t spelling_settle(const uint8_t *text, size_t text_len, uint8_t *out, size_t out_len);

#ifdef __cplusplus
}
#endif

#endif
