/* The same rule in plain C, one pass, as the yardstick. */
#include <stddef.h>
#include <stdint.h>
#include <string.h>

/* the run script compiles this file twice, under two names */
#ifndef PLAIN
#define PLAIN plain_settle
#endif

int32_t PLAIN(const uint8_t *text, size_t text_len, uint8_t *out, size_t out_len);

int32_t PLAIN(const uint8_t *text, size_t text_len, uint8_t *out, size_t out_len)
{
    uint8_t settled[40];
    size_t len = 0;
    int gap = 0; /* slashes were met, and what follows them is not known yet */

    if (text_len > 120)
        return -1;
    for (size_t i = 0; i < text_len; i++) {
        uint8_t c = text[i];

        if (c < 0x20 || c > 0x7E)
            return -2;
        if (c == '\\')
            c = '/';
        else if (c >= 'A' && c <= 'Z')
            c += 32;
        if (c == '/') {
            gap = len > 0;
            continue;
        }
        if (gap) {
            if (len < 40)
                settled[len] = '/';
            len++;
            gap = 0;
        }
        /* past the limit go on counting: a later byte may not be allowed */
        if (len < 40)
            settled[len] = c;
        len++;
    }
    if (len == 0)
        return -3;
    if (len > 40)
        return -4;
    if (out_len < 40)
        return -8;
    memcpy(out, settled, len);
    return (int32_t)len;
}
