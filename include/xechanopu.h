/*
 * Xechanopu: masked gadgets for ML-DSA (FIPS 204). Link libcapi.a, which `rt lib` in crates/capi makes
 * for x86-64. It needs memcpy and memset, and nothing else.
 *
 * SHARINGS
 *
 * A secret is held in n shares, which are 32-bit words; n is from 2 to 8.
 *   - An arithmetic sharing modulo M has words below M. Its value is their sum modulo M.
 *   - A Boolean sharing of width k has words below 2^k. Its value is their exclusive or.
 * q is 8380417. A negative number x is the residue M - |x|: a residue above half of M means itself less M.
 * The shares of a coefficient stand side by side, share 1 first.
 *
 * THE TAPE
 *
 * `tape` is `words` random words that you fill before the call. Every call reads it from its first word, so
 * give each call fresh words, and wipe them afterwards. A draw below M takes the low bits of the next word, as
 * many as M - 1 has, and skips the word if they are not below M. `used` says how many words a call read,
 * skipped ones included.
 *
 * Let d be n - 1, and alpha the smallest number with 2^alpha >= n: 1 for n = 2, 2 for 3 and 4, 3 for 5 to 8.
 * The draws of a call that succeeds:
 *
 *   xe_refresh, xe_refresh_boolean   d
 *   xe_shift                         t*d^2 + d
 *   xe_to_boolean                    (k - 1)*d^2 + d
 *   xe_to_arithmetic                 3*2^d - 3
 *   xe_to_mod_q                      3*2^d - 3 + alpha*d^2
 *   xe_sample                        3*2^d - 3 + alpha*d^2 + n    (6, 20, 43, 98, 174, 304, 536 for n = 2 .. 8)
 *   xe_sample_polynomial             256 times those of xe_sample
 *   xe_widen                         (alpha + 1)*d^2 + d
 *   xe_decompose                     (23 + alpha)*d^2 + 2*d
 *   xe_verdict                       (alpha + 1 + 2*rho)*d^2 + d + n*d/2 + n^2
 *
 * A tape needs a word for every draw, and more for those that are skipped. If its words are uniform, then a
 * tape of this many words is too short less often than the last column says:
 *
 *   xe_refresh_boolean, xe_to_boolean,
 *   xe_to_arithmetic                 the draws: none is ever skipped            never
 *   xe_refresh, xe_shift             3 times the draws, and 100, for any M;     once in 2^75 calls
 *                                    the draws if M is a power of two           never
 *   xe_to_mod_q, xe_sample           the draws and 20                           once in 2^67 calls
 *   xe_sample_polynomial             the draws and 100                          once in 2^50 calls
 *   xe_widen                         the draws and 8                            once in 2^58 calls
 *   xe_decompose, sets 65 and 87     the draws and 8                            once in 2^58 calls
 *   xe_decompose, set 44             100, 250, 470, 790, 1170, 1620, 2150
 *                                    for n = 2 .. 8                             once in 2^58 calls
 *   xe_verdict                       the draws and 20                           once in 2^67 calls
 *
 * THE PARAMETER SETS
 *
 *   set  gamma1  gamma2  delta   kind 1 (z): a, b, rho   kind 2 (r~): a, b, rho
 *   44   131072   95232     44   130994, 131150, 8        95154,  95232, 7
 *   65   524288  261888     16   524092, 524484, 9       261692, 261888, 8
 *   87   524288  261888     16   524168, 524408, 8       261768, 261888, 7
 *
 * a is the bound, b the reach and rho the shift of the verdict.
 *
 * WHAT A CALL ANSWERS
 *
 * Look at `number` first. The checks run in this order, and the first that fails answers.
 *
 *   0  success
 *   1  the share count n is not 2 to 8
 *   2  out_len is not the length of the new shares: n, or 256*n in xe_sample_polynomial
 *   3  a parameter is out of its range
 *   4  a share is not below its modulus or, if Boolean, 2 to its width
 *   5  the tape ended before the last draw
 *
 * A refusal (1 to 5) has 0 in every other field and leaves out as it was, but for one: where the tape ends,
 * xe_sample_polynomial sets all of out to 0. Never take a field of a refusal for an answer.
 *
 * MEMORY
 *
 * All memory is the caller's. The library allocates nothing, keeps no pointer, and has no state between calls;
 * calls may run at once in several threads, as long as none of them writes what another was lent. The shares
 * and the tape are only read. out must not overlap them. Every pointer must be aligned and valid for the stated
 * count of words, and must not be null, even where that count is 0. Lengths count words, not bytes.
 *
 * What a call leaves on the stack is not cleared. Nothing is claimed about time, power, or an observer who sees
 * values inside a call. README.md says what is proved and what is not.
 */
#ifndef XECHANOPU_H
#define XECHANOPU_H

#include <stddef.h>
#include <stdint.h>

#ifdef __cplusplus
extern "C" {
#endif

/* The answer of a gadget that leaves shares in out. */
typedef struct {
    uint32_t number; /* 0, or why the call was refused */
    uint64_t used;   /* tape words read */
} xe_shared;

/* The answer of xe_decompose. */
typedef struct {
    uint32_t number;
    uint32_t high; /* the high part, no longer secret: 0 to delta - 1 */
    uint64_t used;
} xe_decomposed;

/* The answer of xe_verdict. A coefficient is accepted only if number is 0 and verdict is 1. */
typedef struct {
    uint32_t number;
    uint32_t verdict; /* 1 accepts, 0 rejects; 0 in a refusal too, where nothing was judged */
    uint32_t opened;  /* the one number that is opened: 0 where the verdict is 0, else 1 to q - 1 */
    uint64_t used;
} xe_judged;

/*
 * New shares of the same value. shares: arithmetic modulo modulus, n words. out: the same, n words.
 * modulus is 2 to 4294967295. Refusals: 1 to 5.
 */
xe_shared xe_refresh(const uint32_t *shares, size_t n, const uint32_t *tape, size_t words, uint32_t modulus,
                     uint32_t *out, size_t out_len);

/*
 * New shares of the same value. shares: Boolean of width width, n words. out: the same, n words.
 * width is 1 to 31. Refusals: 1 to 5.
 */
xe_shared xe_refresh_boolean(const uint32_t *shares, size_t n, const uint32_t *tape, size_t words, uint32_t width,
                             uint32_t *out, size_t out_len);

/*
 * From x to x / 2^t, rounded down. shares: arithmetic modulo modulus, n words. out: arithmetic modulo
 * modulus / 2^t, n words. t is 1 to 31, 2^t divides modulus, and modulus / 2^t is at least 2. Refusals: 1 to 5.
 */
xe_shared xe_shift(const uint32_t *shares, size_t n, const uint32_t *tape, size_t words, uint32_t modulus, uint32_t t,
                   uint32_t *out, size_t out_len);

/*
 * The same value in another sharing. shares: Boolean of width k, n words. out: arithmetic modulo 2^k, n words.
 * k is 1 to 31. Refusals: 1 to 5.
 */
xe_shared xe_to_arithmetic(const uint32_t *shares, size_t n, const uint32_t *tape, size_t words, uint32_t k,
                           uint32_t *out, size_t out_len);

/*
 * The same value in another sharing. shares: arithmetic modulo 2^k, n words. out: Boolean of width k, n words.
 * k is 1 to 31. Refusals: 1 to 5.
 */
xe_shared xe_to_boolean(const uint32_t *shares, size_t n, const uint32_t *tape, size_t words, uint32_t k, uint32_t *out,
                        size_t out_len);

/*
 * The same value in another sharing. shares: Boolean of width mu, n words. out: arithmetic modulo q, n words.
 * mu is 1 to 20. Refusals: 1 to 5.
 */
xe_shared xe_to_mod_q(const uint32_t *shares, size_t n, const uint32_t *tape, size_t words, uint32_t mu, uint32_t *out,
                      size_t out_len);

/*
 * One coefficient of a mask: a number from -gamma1 + 1 to gamma1 that comes from the tape and that nobody
 * holds. out: arithmetic modulo q, n words. n is stated, since there are no shares to count. set is 44, 65
 * or 87. Refusals: 1, 2, 3, 5.
 */
xe_shared xe_sample(const uint32_t *tape, size_t words, size_t n, uint32_t set, uint32_t *out, size_t out_len);

/*
 * The 256 coefficients of a mask on one tape. out: 256*n words; coefficient c, counted from 0, is in the n
 * words from place c*n. set is 44, 65 or 87. Refusals: 1, 2, 3 leave out as it was, 5 sets all of it to 0.
 */
xe_shared xe_sample_polynomial(const uint32_t *tape, size_t words, size_t n, uint32_t set, uint32_t *out,
                               size_t out_len);

/*
 * From x modulo q to the same x modulo 2^rho * q, for x from -b to b; rho and b are those of the set and the
 * kind. shares: arithmetic modulo q, n words. out: arithmetic modulo 2^rho * q, n words. set is 44, 65 or 87,
 * kind 1 or 2. Refusals: 1 to 5. A number beyond the reach b cannot be seen and is not refused: out may then
 * hold shares of another number.
 */
xe_shared xe_widen(const uint32_t *shares, size_t n, const uint32_t *tape, size_t words, uint32_t set, uint32_t kind,
                   uint32_t *out, size_t out_len);

/*
 * FIPS 204's Decompose of a residue modulo q. shares: arithmetic modulo q, n words. The high part is opened: it
 * is the field high. out: the low part, from -gamma2 to gamma2, arithmetic modulo q, n words. set is 44, 65
 * or 87. Refusals: 1 to 5.
 */
xe_decomposed xe_decompose(const uint32_t *shares, size_t n, const uint32_t *tape, size_t words, uint32_t set,
                           uint32_t *out, size_t out_len);

/*
 * Whether the size of x is below the bound a of the set and the kind, for x from -b to b. shares: arithmetic
 * modulo q, n words. set is 44, 65 or 87; kind 1 is for the coefficients of z, 2 for those of r~.
 * Refusals: 1, 3, 4, 5.
 *
 *   - Accepted means number == 0 && verdict == 1, and nothing else.
 *   - A number beyond the reach b cannot be seen: it is not refused and may be accepted. You must know that x
 *     is within the reach. For z the reach is gamma1 + beta, which is enough; for r~ it is gamma2, and
 *     w0 - c*s2 can be larger.
 *   - A verdict is of one coefficient. An attempt is accepted only if every coefficient is, and whoever sees
 *     the verdicts learns which one was rejected.
 */
xe_judged xe_verdict(const uint32_t *shares, size_t n, const uint32_t *tape, size_t words, uint32_t set, uint32_t kind);

/*
 * Runs cases worked by hand; call it at power-on, before any other function. Answers 0, or the number of the
 * first case that came out wrong. On a machine that keeps the language's rules it is proved to answer 0, so
 * anything else is a fault of the hardware or of the build: use no gadget then. It takes some 6 kB of stack.
 *
 *    1, 2   two draws below q                    12 .. 16  Decompose, set 44
 *    3      Psi, in a conversion                 17 .. 21  verdicts, set 44, kind 1
 *    4 .. 6 shifts, one on a short tape          22        the draws of a verdict in eight shares
 *    7      Boolean to arithmetic                23 .. 25  refusals: one share, nine, a share of q
 *    8      arithmetic to Boolean                26 .. 30  the bounds of 44 kind 2, 65 kinds 1 and 2,
 *    9 .. 11 the offset of each set                        87 kinds 1 and 2
 */
uint32_t xe_self_test(void);

#ifdef __cplusplus
}
#endif

#endif
