/* Checks spelling_settle from C: the worked cases, each limit, each refusal and their order, and a
   reference over many texts. Stops at the first failure.

   usage: settle_test [RANDOM_CASES]    fewer cases for slow runs, as under valgrind */
#include "spelling.h" /* first, to show that it needs nothing before it */

#include "roll.h"

#include <ctype.h>
#include <inttypes.h>
#include <stdio.h>
#include <stdlib.h>
#include <string.h>

static unsigned long checks;

static void *block(size_t size)
{
    void *p = malloc(size);

    if (p == NULL) {
        fprintf(stderr, "c: out of memory\n");
        exit(2);
    }
    return p;
}

/* What stands in a buffer before the call. It differs from byte to byte and is never a settled byte. */
static void fill(uint8_t *p, size_t size)
{
    size_t i;

    for (i = 0; i < size; i++)
        p[i] = (uint8_t)(0x80 | (i * 5 + checks));
}

static void show(const char *name, const uint8_t *p, size_t size)
{
    size_t i;

    fprintf(stderr, "  %s, %lu bytes:", name, (unsigned long)size);
    for (i = 0; i < size && i < 200; i++)
        fprintf(stderr, p[i] > 0x20 && p[i] < 0x7F ? " %c" : " %02X", p[i]);
    fprintf(stderr, i < size ? " ...\n" : "\n");
}

/* One call and everything that can be seen of it. settled counts only if want is a length.
   The blocks end where the buffers end, so that valgrind sees accesses behind them; every third
   block also begins where its buffer begins. The others try odd addresses, and an empty buffer lies
   at the end of its block, where no byte may be touched. */
static void expect(const char *what, const void *text, size_t n, size_t room, int32_t want, const char *settled)
{
    size_t before_text = n == 0 ? 1 : checks % 3;
    size_t before_out = room == 0 ? 1 : checks / 3 % 3;
    uint8_t *text_block = block(before_text + n);
    uint8_t *out_block = block(before_out + room);
    uint8_t *want_block = block(before_out + room);
    const char *wrong = NULL;
    int32_t got;

    fill(text_block, before_text);
    memcpy(text_block + before_text, text, n);
    fill(out_block, before_out + room);
    fill(want_block, before_out + room);
    if (want > 0)
        memcpy(want_block + before_out, settled, (size_t)want);

    got = spelling_settle(text_block + before_text, n, out_block + before_out, room);

    if (got != want)
        wrong = "the answer";
    else if (memcmp(out_block, want_block, before_out + room) != 0)
        wrong = "the buffer";
    else if (memcmp(text_block + before_text, text, n) != 0)
        wrong = "the text has changed";
    if (wrong != NULL) {
        fprintf(stderr, "c: FAILED: %s: %s\n", what, wrong);
        fprintf(stderr, "  answer %" PRId32 ", expected %" PRId32 "\n", got, want);
        show("text", text, n);
        show("buffer", out_block + before_out, room);
        show("expected", want_block + before_out, room);
        exit(1);
    }
    free(text_block);
    free(out_block);
    free(want_block);
    checks++;
}

static void grants(const char *what, const char *text, const char *settled)
{
    expect(what, text, strlen(text), 40, (int32_t)strlen(settled), settled);
}

static void refuses(const char *what, const char *text, size_t room, int32_t number)
{
    expect(what, text, strlen(text), room, -number, NULL);
}

/* The rule once more, by other means: cut the text at its slashes, join the parts. */
static int32_t reference(const uint8_t *text, size_t n, size_t room, char settled[121])
{
    char work[121];
    const char *part;
    size_t i, left;

    settled[0] = 0;
    if (n > 120)
        return -1;
    for (i = 0; i < n; i++) {
        if (text[i] < ' ' || text[i] > '~')
            return -2;
        work[i] = (char)tolower(text[i]);
    }
    work[n] = 0;
    for (part = strtok(work, "/\\"); part != NULL; part = strtok(NULL, "/\\")) {
        if (settled[0] != 0)
            strcat(settled, "/");
        strcat(settled, part);
    }
    left = strlen(settled);
    return left == 0 ? -3 : left > 40 ? -4 : room < 40 ? -8 : (int32_t)left;
}

static int32_t compare(const char *what, const uint8_t *text, size_t n, size_t room)
{
    char settled[121];
    int32_t want = reference(text, n, room, settled);

    expect(what, text, n, room, want, settled);
    return want;
}

/* Room for a string of up to 511 bytes. The last 8 stand, enough for one line of the tests. */
static char *scratch(void)
{
    static char rows[8][512];
    static unsigned row;

    return rows[row++ % 8];
}

/* a byte so many times */
static const char *times(size_t count, char b)
{
    char *p = scratch();

    memset(p, b, count);
    p[count] = 0;
    return p;
}

static const char *join(const char *a, const char *b, const char *c)
{
    char *p = scratch();
    size_t a_len = strlen(a), b_len = strlen(b);

    /* memmove: compilers take two rows of the scratch room for one and warn of an overlap */
    memmove(p, a, a_len);
    memmove(p + a_len, b, b_len);
    memmove(p + a_len + b_len, c, strlen(c) + 1);
    return p;
}

static void numbers(void)
{
    if (SPELLING_TEXT_MAX != 120 || SPELLING_SETTLED_MAX != 40 || SPELLING_TEXT_TOO_LONG != 1 ||
        SPELLING_BYTE_NOT_ALLOWED != 2 || SPELLING_SETTLED_EMPTY != 3 || SPELLING_SETTLED_TOO_LONG != 4 ||
        SPELLING_BUFFER_TOO_SHORT != 8) {
        fprintf(stderr, "c: FAILED: a number in spelling.h\n");
        exit(1);
    }
    checks++;
}

static void worked_cases(void)
{
    grants("worked case", "//Depot\\Art//Rock.FBX/", "depot/art/rock.fbx");
    refuses("worked case", "/", 40, 3);
    grants("forty letters", times(40, 'K'), times(40, 'k'));
    refuses("forty-one letters", times(41, 'K'), 40, 4);
    grants("a settled text", "depot/art/rock.fbx", "depot/art/rock.fbx");
    grants("mixed slashes in one run", "a/\\/\\b", "a/b");
    grants("spaces stay", " A / B ", " a / b ");
    grants("the neighbours of the letters and slashes", "@[`{.0]^|~", "@[`{.0]^|~");
    grants("A and Z", "AZaz", "azaz");
    refuses("no text", "", 40, 3);
    refuses("backslashes only", "\\\\\\", 40, 3);
}

static void text_limits(void)
{
    size_t n;

    for (n = 119; n <= 120; n++) {
        refuses("letters up to the limit", times(n, 'a'), 40, 4);
        refuses("slashes up to the limit", times(n, '/'), 40, 3);
        grants("a letter, then slashes up to the limit", join("A", times(n - 1, '/'), ""), "a");
        grants("slashes up to the limit, then a letter", join(times(n - 1, '\\'), "Z", ""), "z");
        grants("forty letters within slashes", join(times(n - 60, '/'), times(40, 'B'), times(20, '\\')),
               times(40, 'b'));
    }
    refuses("121 letters", times(121, 'a'), 40, 1);
    refuses("121 slashes", times(121, '/'), 40, 1);
    refuses("a letter, then 120 slashes", join("a", times(120, '/'), ""), 40, 1);
    refuses("120 slashes, then a letter", join(times(120, '/'), "a", ""), 40, 1);

    /* lengths that look short to a narrower counter */
    refuses("255 bytes", times(255, 'a'), 40, 1);
    refuses("256 bytes", times(256, 'a'), 40, 1);
    refuses("257 bytes", times(257, 'a'), 40, 1);
    {
        size_t long_len = 65536 + 5;
        char *long_text = block(long_len);

        memset(long_text, 'a', long_len);
        expect("65,541 bytes", long_text, long_len, 40, -1, NULL);
        free(long_text);
    }
}

static void settled_limits(void)
{
    grants("39 letters", times(39, 'Q'), times(39, 'q'));
    grants("39 letters and a slash", join(times(39, 'q'), "/", ""), times(39, 'q'));
    refuses("39 letters, a slash, a letter", join(times(39, 'q'), "/", "q"), 40, 4);
    grants("38 letters, slashes, a letter", join(times(38, 'q'), "\\//\\", "Q"), join(times(38, 'q'), "/q", ""));
    grants("40 letters and a slash", join(times(40, 'q'), "/", ""), times(40, 'q'));
    grants("40 letters and 80 slashes", join(times(40, 'q'), times(80, '/'), ""), times(40, 'q'));
    refuses("40 letters, a slash, a letter", join(times(40, 'q'), "/", "q"), 40, 4);
    refuses("40 letters, slashes, a letter", join(times(40, 'q'), times(79, '/'), "q"), 40, 4);
    refuses("41 letters and slashes", join(times(41, 'q'), times(79, '/'), ""), 40, 4);
    refuses("41 letters after a slash", join("/", times(41, 'q'), ""), 40, 4);
    refuses("39 letters, a slash, 80 letters", join(times(39, 'q'), "/", times(80, 'q')), 40, 4);
}

static void buffer_limits(void)
{
    static const size_t short_rooms[] = {0, 1, 39};
    static const size_t rooms[] = {40, 41, 64, 255, 256, 257, 65536, 65537};
    size_t i;

    for (i = 0; i < sizeof short_rooms / sizeof *short_rooms; i++) {
        refuses("a short buffer for one byte", "a", short_rooms[i], 8);
        refuses("a short buffer for 39 bytes", times(39, 'a'), short_rooms[i], 8);
        refuses("a short buffer for 40 bytes", times(40, 'a'), short_rooms[i], 8);
    }
    for (i = 0; i < sizeof rooms / sizeof *rooms; i++) {
        expect("one byte into a buffer", "A", 1, rooms[i], 1, "a");
        expect("39 bytes into a buffer", times(39, 'A'), 39, rooms[i], 39, times(39, 'a'));
        expect("40 bytes into a buffer", times(40, 'A'), 40, rooms[i], 40, times(40, 'a'));
        refuses("a refused text and a long buffer", "//", rooms[i], 3);
    }
}

/* texts to which several refusals apply */
static void refusal_order(void)
{
    static const size_t rooms[] = {0, 39, 40};
    size_t i, at;

    for (i = 0; i < sizeof rooms / sizeof *rooms; i++) {
        size_t room = rooms[i];

        refuses("1 before 4", times(121, 'a'), room, 1);
        refuses("1 before 3", times(121, '/'), room, 1);
        refuses("1 before 2, first byte", join("\x1F", times(120, 'a'), ""), room, 1);
        refuses("1 before 2, last byte", join(times(120, '/'), "\x7F", ""), room, 1);
        refuses("1 before 2, each byte", times(121, '\x01'), room, 1);

        refuses("2 before 4, first byte", join("\x7F", times(50, 'a'), ""), room, 2);
        refuses("2 before 4, last byte", join(times(119, 'a'), "\x1F", ""), room, 2);
        refuses("2 before 4, after forty letters", join(times(40, 'a'), "\x80", ""), room, 2);
        refuses("2 after slashes only", join(times(10, '/'), "\xFF", ""), room, 2);
        refuses("2 before slashes only", join("\n", times(119, '\\'), ""), room, 2);
        for (at = 0; at < 120; at++) {
            refuses("2, one byte among letters", join(times(at, 'a'), "\x1F", times(119 - at, 'a')), room, 2);
            refuses("2, one byte among slashes", join(times(at, '/'), "\x7F", times(119 - at, '/')), room, 2);
        }

        refuses("3 before 8", "", room, 3);
        refuses("3 before 8", "/\\/", room, 3);
        refuses("3 before 8", times(120, '/'), room, 3);

        refuses("4 before 8", times(41, 'a'), room, 4);
        refuses("4 before 8", times(120, 'a'), room, 4);
    }
    refuses("8 comes last", "//A//", 39, 8);
}

static void each_byte(void)
{
    uint8_t text[120];
    unsigned b;
    size_t at;

    for (b = 0; b < 256; b++) {
        int allowed = b >= 0x20 && b <= 0x7E;
        int slash = b == 0x2F || b == 0x5C;
        char lower = (char)(b >= 0x41 && b <= 0x5A ? b + 0x20 : b);
        char alone[1], inside[5] = "ab.cd", slashed[5] = "ab/cd";

        text[0] = (uint8_t)b;
        alone[0] = lower;
        expect("a byte alone", text, 1, 40, !allowed ? -2 : slash ? -3 : 1, alone);

        memcpy(text, "AB.CD", 5);
        text[2] = (uint8_t)b;
        inside[2] = lower;
        expect("a byte inside", text, 5, 40, allowed ? 5 : -2, slash ? slashed : inside);

        /* at each place of the longest text: 80 slashes around forty letters */
        for (at = 0; at < sizeof text; at++) {
            memset(text, '/', sizeof text);
            memset(text + 40, 'M', 40);
            text[at] = (uint8_t)b;
            compare("a byte at each place", text, sizeof text, 40);
        }
    }
}

/* every text of up to 6 bytes over a small alphabet, alone and after enough letters to meet the limit of 40 */
static void short_texts(void)
{
    static const uint8_t alphabet[6] = {'a', 'Z', '/', '\\', 0x1F, '~'};
    uint8_t text[38 + 6];
    unsigned long count = 1, number, rest;
    size_t n, i;

    memset(text, 'k', 38);
    for (n = 0; n <= 6; n++, count *= 6)
        for (number = 0; number < count; number++) {
            for (i = 0, rest = number; i < n; i++, rest /= 6)
                text[38 + i] = alphabet[rest % 6];
            compare("a short text", text + 38, n, 40);
            compare("a short text, a short buffer", text + 38, n, 39);
            compare("a short text after 38 letters", text, 38 + n, 40);
        }
}

static size_t random_text(uint8_t text[125])
{
    unsigned kind = roll(8);
    unsigned slashes = roll(100); /* of 100 bytes */
    size_t n = roll(3) == 0 ? roll(126) : roll(56), i;

    for (i = 0; i < n; i++)
        if (kind == 0)
            text[i] = (uint8_t)roll(256);
        else if (kind == 1 || roll(100) < slashes)
            text[i] = roll(2) == 0 ? '/' : '\\';
        else if (kind == 2)
            text[i] = (uint8_t)(0x20 + roll(0x5F));
        else
            text[i] = (uint8_t)((roll(2) == 0 ? 'a' : 'A') + roll(26));
    if (n > 0 && roll(12) == 0)
        text[roll((unsigned)n)] = (uint8_t)(roll(2) == 0 ? roll(0x20) : 0x7F + roll(0x81));
    return n;
}

static void random_texts(unsigned long cases)
{
    static const size_t rooms[] = {40, 40, 40, 41, 64, 39, 1, 0};
    unsigned long seen[9] = {0}, number;
    uint8_t text[125];
    char settled[121];
    size_t n, kind;

    for (number = 0; number < cases; number++) {
        size_t room = rooms[roll(8)];
        int32_t answer;

        n = random_text(text);
        answer = compare("a random text", text, n, room);
        seen[answer < 0 ? -answer : 0]++;
        if (answer > 0) {
            reference(text, n, room, settled);
            expect("a settled text settles to itself", settled, (size_t)answer, room, answer, settled);
        }
    }
    /* texts that miss an answer would check little */
    for (kind = 0; kind < 9; kind++)
        if (cases >= 1000 && (kind < 5 || kind == 8) && seen[kind] < cases / 200) {
            fprintf(stderr, "c: FAILED: only %lu of %lu random texts meet answer %d\n", seen[kind], cases, -(int)kind);
            exit(1);
        }
}

int main(int argc, char **argv)
{
    unsigned long cases = argc > 1 ? strtoul(argv[1], NULL, 10) : 300000;

    numbers();
    worked_cases();
    text_limits();
    settled_limits();
    buffer_limits();
    refusal_order();
    each_byte();
    short_texts();
    random_texts(cases);
    printf("c: %lu checks passed\n", checks);
    return 0;
}
