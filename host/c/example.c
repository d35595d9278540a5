/*
 * A start for firmware that uses the library: the self test, then one verdict on each side of the bound, one
 * Decompose, and one coefficient of a mask, all in three shares. Exits with 0 only if everything came out as it
 * must. include/xechanopu.h has the ranges, the refusals and the lengths of the tapes.
 *
 * Replace random_words by your generator. The numbers here are known, so that the answers can be held to what
 * they must be; on a device the shares come from masked arithmetic, and nothing is recombined.
 */
#include "xechanopu.h"

#include <stdio.h>

enum { Q = 8380417, SHARES = 3, SET = 44, KIND_Z = 1, GAMMA1 = 131072 };

/* Words for one call in three shares of set 44, with words to spare for those that are skipped. */
enum { REFRESH_WORDS = 106, VERDICT_WORDS = 110, DECOMPOSE_WORDS = 250, SAMPLE_WORDS = 40, MOST_WORDS = 250 };

static uint32_t tape[MOST_WORDS];

/* Fills the words from the random source of the host. Answers 0 if it could. */
static int random_words(uint32_t *words, size_t count)
{
    size_t got;
    FILE *source = fopen("/dev/urandom", "rb");
    if (source == NULL) {
        return 1;
    }
    /* A buffer would keep a copy of the words. */
    setvbuf(source, NULL, _IONBF, 0);
    got = fread(words, sizeof *words, count, source);
    fclose(source);
    return got != count;
}

/* volatile, so that the compiler does not leave out a write that nobody reads. */
static void wipe(uint32_t *words, size_t count)
{
    volatile uint32_t *place = words;
    while (count > 0) {
        count--;
        place[count] = 0;
    }
}

/* Every call gets fresh words. Answers 0 if there are any. */
static int fill_tape(size_t words)
{
    if (random_words(tape, words) != 0) {
        fprintf(stderr, "there are no random words\n");
        return 1;
    }
    return 0;
}

/* Says why a call was refused. Answers 0 if it was not. */
static int refused(const char *gadget, uint32_t number)
{
    static const char *const why[] = {
        "the share count is not 2 to 8",   "out has another length than the new shares",
        "a parameter is out of its range", "a share is not below its modulus or 2 to its width",
        "the tape ended before the last draw",
    };
    if (number == 0) {
        return 0;
    }
    fprintf(stderr, "%s was refused: %s\n", gadget, number <= 5 ? why[number - 1] : "for no known reason");
    return 1;
}

/* Shares of a residue: all of it in share 1, and then a refresh. Answers 0 if it could. */
static int share(uint32_t residue, uint32_t *shares)
{
    uint32_t whole[SHARES] = {0};
    int failed = fill_tape(REFRESH_WORDS);
    whole[0] = residue;
    if (!failed) {
        xe_shared told = xe_refresh(whole, SHARES, tape, REFRESH_WORDS, Q, shares, SHARES);
        failed = refused("xe_refresh", told.number);
    }
    wipe(tape, MOST_WORDS);
    wipe(whole, SHARES);
    return failed;
}

/* Only to hold an answer to what it must be; a device never does this. */
static uint32_t recombined(const uint32_t *shares)
{
    uint64_t sum = 0;
    size_t i;
    for (i = 0; i < SHARES; i++) {
        sum += shares[i];
    }
    return (uint32_t)(sum % Q);
}

/* Whether the number with this residue is below the bound of z. Answers 0 if it was judged as it must be. */
static int judge(uint32_t residue, int must_accept)
{
    uint32_t shares[SHARES] = {0};
    int failed = share(residue, shares) || fill_tape(VERDICT_WORDS);
    if (!failed) {
        xe_judged told = xe_verdict(shares, SHARES, tape, VERDICT_WORDS, SET, KIND_Z);
        /* A refusal has 0 as its verdict, which alone does not mean that anything was judged. */
        int accepted = told.number == 0 && told.verdict == 1;
        failed = refused("xe_verdict", told.number) || accepted != must_accept;
        printf("verdict on %u: %s\n", (unsigned)residue, accepted ? "accepted" : "not accepted");
    }
    wipe(tape, MOST_WORDS);
    wipe(shares, SHARES);
    return failed;
}

/* Answers 0 if the parts are these. The low part is a residue. */
static int decompose(uint32_t residue, uint32_t high, uint32_t low_residue)
{
    uint32_t shares[SHARES] = {0}, low[SHARES] = {0};
    int failed = share(residue, shares) || fill_tape(DECOMPOSE_WORDS);
    if (!failed) {
        xe_decomposed told = xe_decompose(shares, SHARES, tape, DECOMPOSE_WORDS, SET, low, SHARES);
        failed = refused("xe_decompose", told.number) || told.high != high || recombined(low) != low_residue;
        printf("Decompose of %u: high part %u, low part in shares\n", (unsigned)residue, (unsigned)told.high);
    }
    wipe(tape, MOST_WORDS);
    wipe(shares, SHARES);
    wipe(low, SHARES);
    return failed;
}

/* One coefficient of a mask. Answers 0 if it is from -gamma1 + 1 to gamma1. */
static int sample(void)
{
    uint32_t mask[SHARES] = {0};
    int failed = fill_tape(SAMPLE_WORDS);
    if (!failed) {
        xe_shared told = xe_sample(tape, SAMPLE_WORDS, SHARES, SET, mask, SHARES);
        failed = refused("xe_sample", told.number) || (recombined(mask) + GAMMA1 - 1) % Q >= 2 * GAMMA1;
        printf("a mask coefficient in shares: %u words used\n", (unsigned)told.used);
    }
    wipe(tape, MOST_WORDS);
    wipe(mask, SHARES);
    return failed;
}

int main(void)
{
    uint32_t wrong = xe_self_test();
    if (wrong != 0) {
        fprintf(stderr, "self test: case %u came out wrong; no gadget may be used\n", (unsigned)wrong);
        return 1;
    }
    printf("self test: passed\n");
    /* The bound of z is 130994; 8249424 is -130993. 95233 is 1 * 190464 - 95231. */
    if (judge(130993, 1) || judge(8249424, 1) || judge(130994, 0) || decompose(95233, 1, Q - 95231) || sample()) {
        fprintf(stderr, "something failed\n");
        return 1;
    }
    return 0;
}
