/* Times spelling_settle against the same rule in plain C, compiled by -O2 and by -O3, in one run. */
#define _POSIX_C_SOURCE 200809L
#include "roll.h"
#include "spelling.h"

#include <stdio.h>
#include <stdlib.h>
#include <string.h>
#include <time.h>

enum {
    TEXTS = 256,  /* of each input: too many to be learned by heart by a branch predictor */
    CALLS = 8192, /* of a pass, over the texts in a mixed order */
    PASSES = 3,   /* of a round */
    ROUNDS = 101,
    WAYS = 3
};

typedef int32_t settle_fn(const uint8_t *text, size_t text_len, uint8_t *out, size_t out_len);
settle_fn plain_o2, plain_o3;

static settle_fn *const ways[WAYS] = {spelling_settle, plain_o2, plain_o3};
static const char *const names[WAYS] = {"archive", "plain -O2", "plain -O3"};

struct text {
    size_t len;
    uint8_t bytes[120];
};

static struct text texts[TEXTS];
static uint16_t order[CALLS];
static volatile int32_t sink;

static void add(struct text *t, uint8_t b)
{
    t->bytes[t->len++] = b;
}

/* a path that is settled, of this many bytes */
static void settled_path(struct text *t, size_t len)
{
    unsigned until_slash = 3 + roll(8);

    t->len = 0;
    while (t->len < len)
        if (until_slash-- == 0 && t->len + 1 < len) {
            add(t, '/');
            until_slash = 3 + roll(8);
        } else {
            add(t, roll(12) == 0 ? "0123456789._"[roll(12)] : (uint8_t)('a' + roll(26)));
        }
}

static void settled_input(struct text *t, unsigned number)
{
    (void)number;
    settled_path(t, 38);
}

/* a path as people type it: words with capitals, either slash, runs of slashes, slashes at the ends */
static void mixed_input(struct text *t, unsigned number)
{
    struct text path;
    size_t i;
    unsigned slashes;

    (void)number;
    settled_path(&path, 16 + roll(25));
    t->len = 0;
    for (slashes = roll(3); slashes > 0; slashes--)
        add(t, roll(2) == 0 ? '/' : '\\');
    for (i = 0; i < path.len; i++)
        if (path.bytes[i] == '/') {
            for (slashes = roll(3) == 0 ? 2 + roll(2) : 1; slashes > 0; slashes--)
                add(t, roll(2) == 0 ? '/' : '\\');
        } else if (path.bytes[i] >= 'a' && path.bytes[i] <= 'z' && (i == 0 || path.bytes[i - 1] == '/' || roll(6) == 0)) {
            add(t, (uint8_t)(path.bytes[i] - 32));
        } else {
            add(t, path.bytes[i]);
        }
    for (slashes = roll(3); slashes > 0; slashes--)
        add(t, roll(2) == 0 ? '/' : '\\');
}

static void refused_input(struct text *t, unsigned number)
{
    size_t len;

    switch (number % 3) {
    case 0: /* a byte that is not allowed, late */
        settled_path(t, 30 + roll(20));
        t->bytes[t->len - 1 - roll(6)] = roll(2) == 0 ? (uint8_t)roll(0x20) : (uint8_t)(0x7F + roll(0x81));
        break;
    case 1: /* nothing but slashes */
        t->len = 0;
        for (len = 1 + roll(40); len > 0; len--)
            add(t, roll(2) == 0 ? '/' : '\\');
        break;
    default: /* too long when settled */
        settled_path(t, 41 + roll(40));
    }
}

static int granted_38(int32_t answer, const struct text *t, const uint8_t *out)
{
    return answer == 38 && t->len == 38 && memcmp(t->bytes, out, 38) == 0;
}

static int granted(int32_t answer, const struct text *t, const uint8_t *out)
{
    (void)t, (void)out;
    return answer > 0;
}

static int refused(int32_t answer, const struct text *t, const uint8_t *out)
{
    (void)t, (void)out;
    return answer == -2 || answer == -3 || answer == -4;
}

static const struct input {
    const char *name;
    void (*make)(struct text *t, unsigned number);
    int (*meant)(int32_t answer, const struct text *t, const uint8_t *out); /* the answer is of the kind to be timed */
} inputs[] = {
    {"settled, 38 bytes", settled_input, granted_38},
    {"mixed", mixed_input, granted},
    {"refused", refused_input, refused},
};

/* all ways must give the same answer and the same buffer before their times are compared */
static void check(const struct input *input)
{
    uint8_t out[WAYS][48];
    int32_t answer[WAYS];
    int i, w;

    for (i = 0; i < TEXTS; i++)
        for (w = 0; w < WAYS; w++) {
            const char *wrong = NULL;

            memset(out[w], 0xA5, sizeof out[w]);
            answer[w] = ways[w](texts[i].bytes, texts[i].len, out[w], sizeof out[w]);
            if (answer[w] != answer[0])
                wrong = "the answers differ";
            else if (memcmp(out[w], out[0], sizeof out[w]) != 0)
                wrong = "the buffers differ";
            else if (!input->meant(answer[w], &texts[i], out[w]))
                wrong = "not an answer of this input";
            if (wrong != NULL) {
                fprintf(stderr, "bench: %s, text %d: %s: the archive gives %d, %s %d\n", input->name, i, wrong,
                        (int)answer[0], names[w], (int)answer[w]);
                exit(1);
            }
        }
}

static double now_ns(void)
{
    struct timespec t;

    clock_gettime(CLOCK_MONOTONIC, &t);
    return (double)t.tv_sec * 1e9 + (double)t.tv_nsec;
}

/* ns per call in one round */
static double time_round(settle_fn *settle)
{
    uint8_t out[40];
    int32_t sum = 0;
    double start = now_ns();
    int pass, i;

    for (pass = 0; pass < PASSES; pass++)
        for (i = 0; i < CALLS; i++) {
            const struct text *t = &texts[order[i]];

            sum += settle(t->bytes, t->len, out, sizeof out);
        }
    start = now_ns() - start;
    sink = sum;
    return start / ((double)PASSES * CALLS);
}

static int ascending(const void *a, const void *b)
{
    double x = *(const double *)a, y = *(const double *)b;

    return (x > y) - (x < y);
}

int main(void)
{
    static double times[WAYS][ROUNDS];
    double worst = 0;
    size_t k;
    int i, w, round;

    printf("ns per call, median of %d rounds\n", ROUNDS);
    printf("%-18s %9s %9s %9s %7s\n", "input", names[0], names[1], names[2], "ratio");
    for (k = 0; k < sizeof inputs / sizeof *inputs; k++) {
        double median[WAYS], baseline, ratio;

        for (i = 0; i < TEXTS; i++)
            inputs[k].make(&texts[i], (unsigned)i);
        for (i = 0; i < CALLS; i++)
            order[i] = (uint16_t)roll(TEXTS);
        check(&inputs[k]);

        for (w = 0; w < WAYS; w++)
            time_round(ways[w]); /* warm-up */
        /* in turns, beginning with another one each time, so that other load on the machine meets all alike */
        for (round = 0; round < ROUNDS; round++)
            for (i = 0; i < WAYS; i++) {
                w = (round + i) % WAYS;
                times[w][round] = time_round(ways[w]);
            }
        for (w = 0; w < WAYS; w++) {
            qsort(times[w], ROUNDS, sizeof times[w][0], ascending);
            median[w] = times[w][ROUNDS / 2];
        }
        /* the faster plain one is the yardstick */
        baseline = median[1] < median[2] ? median[1] : median[2];
        ratio = median[0] / baseline;
        if (ratio > worst)
            worst = ratio;
        printf("%-18s %9.1f %9.1f %9.1f %7.2f\n", inputs[k].name, median[0], median[1], median[2], ratio);
    }
    printf("worst ratio %.2f (goal: at most 1.10)\n", worst);
    return 0;
}
