/*
 * banquet.h - the Banquet signature over AES-128 and SHAKE128, for C99 and C++98
 * or later.
 *
 * Parameters: 16 parties, 41 executions, 32-bit wide elements, m1 = 10, m2 = 20.
 *
 * Link with libbanquet.a (`pkg-config --libs banquet`); in the repository, before
 * `make install`, with target/staticlib/libcapi.a. Both are for x86-64 Linux. It
 * needs nothing but memcpy and memset from the C library.
 *
 *
 * SLICES
 *
 * A slice is two arguments, a pointer and a length in bytes. Every length is
 * allowed; one that does not fit is refused. The caller keeps these rules, which
 * the library cannot test:
 *
 *   - All `length` bytes at the pointer belong to the caller; those at a
 *     pointer without const may be written.
 *   - A slice without const overlaps no other slice of the call. Const slices
 *     may overlap each other.
 *   - No pointer is null, not even with length 0: an empty slice has any other
 *     pointer, for instance one past an array's end. (Null with length 0 was
 *     tried and did no harm, but nothing promises it.)
 *   - Nothing else writes to a slice while the call runs, and nothing else
 *     reads from one that the call may write to.
 *
 * A slice needs no alignment. The call keeps no pointer after it returns.
 *
 *
 * WHAT THE SLICES HOLD AFTERWARDS
 *
 *   - A const slice is never written to.
 *   - `out`, when the call is accepted: its first bytes are the result, as many
 *     as the macro named at the call; the rest is as it was. When it is
 *     refused: all of it is as it was.
 *   - `work`, when the call is accepted or refused by 13 to 17: its first
 *     BANQUET_WORK_BYTES bytes are zero; the rest is as it was. When it is
 *     refused by another number: all of it is as it was.
 *
 * What `out` and `work` hold before the call has no effect on the answer or on
 * the result.
 *
 *
 * ANSWERS
 *
 * Every call returns number * 65536 + place. 0 is accepted; see the list of
 * refusals below. Where several apply, the lowest number is returned; a text
 * that breaks its form (18) comes before all others.
 *
 *
 * RANDOM BYTES
 *
 * The library fetches none: key, salt and seeds are lent. Take each from a
 * generator made for cryptography. Salt and seeds are new for every signature
 * and every opening. Seeds are as secret as the key: whoever knows the seeds of
 * one signature can work out the key.
 *
 *
 * THREADS AND STACK
 *
 * There is no static data that is written to, no heap, no file and no lock: any
 * number of threads may call at once, each with its own `out` and `work`. A call
 * always returns, and it calls nothing back. Give every thread that calls
 * at least BANQUET_STACK_BYTES of stack beside what it needs itself.
 *
 *
 * SECRETS LEFT BEHIND
 *
 * `work` holds nothing of key and seeds after a call: it is zero or as it was,
 * as said above, and this is promised and proved. The stack does hold something
 * of them. Nothing proves or promises what: a contract speaks of the slices that
 * are lent, not of locals that are gone, and a compiler may drop stores to
 * these. tests/residue.c searches the stack and finds
 *
 *   - after public_key, and when sign or open is refused by 12: half of the key;
 *   - after public_key, sign and open, and when sign or open is refused by 12:
 *     key xor plaintext, which gives the key away;
 *   - after sign and open: seeds of hidden parties, which give it away, too;
 *   - nothing after verify, verify_opening and verify_card, which take no
 *     secret.
 *
 * It finds no root seed, but it does not know all that a secret can be worked
 * out from. So call banquet_wipe_stack() after public_key, sign and open: it
 * overwrites the stack that they used. This is tested, not proved. Registers are
 * not wiped. Key and seeds of your own are yours to wipe, as
 * examples/c/sign_and_verify.c does.
 *
 *
 * WHAT IS PROVED
 *
 * For all contents and all lengths of the slices, each call's answer and what
 * every slice holds afterwards equal the definitions in crates/banquet/specs.
 * What `sign` makes is accepted by `verify`; `verify` accepts only where every
 * check holds. The calls read and write no byte outside their slices. Not
 * proved: this header, the compiler's back end, how much time or stack a call
 * takes, and that AES and SHAKE are hard to break. docs/TRUST.md has the whole.
 */
#ifndef BANQUET_H
#define BANQUET_H

#include <stddef.h>
#include <stdint.h>

#ifdef __cplusplus
extern "C" {
#endif

/* ---- version of this header, and of the Rust crate ---- */

#define BANQUET_VERSION_MAJOR 0
#define BANQUET_VERSION_MINOR 1
#define BANQUET_VERSION_PATCH 0
#define BANQUET_VERSION "0.1.0"

/* ---- sizes, in bytes ---- */

#define BANQUET_KEY_BYTES 16             /* secret key: an AES-128 key */
#define BANQUET_PLAINTEXT_BYTES 16       /* public plaintext */
#define BANQUET_PUBLIC_KEY_BYTES 32      /* plaintext 16, ciphertext 16 */
#define BANQUET_SALT_BYTES 32            /* salt of a signature or an opening */
#define BANQUET_SEED_BYTES 16            /* root seed of one execution */
#define BANQUET_SEEDS_BYTES 656          /* 41 root seeds, for signing */
#define BANQUET_FIRST_CHALLENGE_BYTES 40 /* ten numbers of 4 bytes, low first */
#define BANQUET_SIGNATURE_BYTES 19776
#define BANQUET_OPENING_BYTES 2554
#define BANQUET_WORK_BYTES 65536         /* least length of `work` */
#define BANQUET_MAX_MESSAGE_BYTES 32768

/* Length of the card text for a message of m bytes, and the longest such. */
#define BANQUET_CARD_BYTES(m) (39660u + 2u * (m))
#define BANQUET_MAX_CARD_BYTES 105196

/*
 * The most stack that each call was seen to take, accepted or refused: below its
 * caller's stack pointer, with the arguments that stand there and the return
 * address. What the caller takes itself comes on top. Measured by tests/stack.c,
 * not proved.
 */
#define BANQUET_STACK_PUBLIC_KEY 768
#define BANQUET_STACK_SIGN 19832
#define BANQUET_STACK_VERIFY 22200
#define BANQUET_STACK_OPEN 18072
#define BANQUET_STACK_VERIFY_OPENING 12200
#define BANQUET_STACK_VERIFY_CARD 75192

/* Stack that is enough for one call of any kind, with margin. */
#define BANQUET_STACK_BYTES 131072

/* ---- ranges of the numbers of an opening ---- */

#define BANQUET_EXECUTIONS 41            /* executions are 0 to 40 */
#define BANQUET_PARTIES 16               /* hidden parties are 0 to 15 */
#define BANQUET_MIN_SECOND_CHALLENGE 20  /* the second challenge is 20 or more */

/* ---- answers ---- */

#define BANQUET_ACCEPTED 0

/* The number and the place of an answer; both are 0 when it is accepted. */
#define BANQUET_NUMBER(answer) ((uint32_t)(answer) >> 16)
#define BANQUET_PLACE(answer) ((uint32_t)(answer) & 0xffffu)

/* The numbers of refusals. The place is 0 unless the comment names one. */

/* The key is not 16 bytes. */
#define BANQUET_REFUSED_KEY_LENGTH 1
/* The public key is not 32 bytes, or the plaintext for making one not 16. */
#define BANQUET_REFUSED_PUBLIC_KEY_LENGTH 2
/* The message is over 32,768 bytes. */
#define BANQUET_REFUSED_MESSAGE_LENGTH 3
/* The salt is not 32 bytes, or the first challenge not 40. */
#define BANQUET_REFUSED_SALT_LENGTH 4
/* The seeds are not 656 bytes (sign), or the seed not 16 (open). */
#define BANQUET_REFUSED_SEED_LENGTH 5
/* `out` is too short, or a signature or opening to be checked has not exactly its length. */
#define BANQUET_REFUSED_FILE_LENGTH 6
/* `work` is under 65,536 bytes. */
#define BANQUET_REFUSED_WORK_LENGTH 7
/* An opening's execution is over 40, whether lent (open) or read (verify_opening); 9 and 10 likewise. */
#define BANQUET_REFUSED_EXECUTION 8
/* Its hidden party is over 15. */
#define BANQUET_REFUSED_HIDDEN_PARTY 9
/* Its second challenge is below 20. */
#define BANQUET_REFUSED_SECOND_CHALLENGE 10
/* Under this key some S-box input is zero. Place: the lowest such S-box, 0 to 199. */
#define BANQUET_REFUSED_ZERO_INPUT 11
/* The key does not take the plaintext to the ciphertext. */
#define BANQUET_REFUSED_WRONG_KEY 12
/* In an opening a shown party's commitment differs. Place: the lowest such party. */
#define BANQUET_REFUSED_COMMITMENT 13
/* In an opening a shown party's share differs. Place: the lowest such party;
   16 when none differs and the output shares miss the ciphertext. */
#define BANQUET_REFUSED_SHARE 14
/* c is not the sum of a_j times b_j. Place: the lowest such execution, an opening's own. */
#define BANQUET_REFUSED_PRODUCT 15
/* The recomputed h1 differs: public key, message, salt, commitments or offsets are not what was signed. */
#define BANQUET_REFUSED_FIRST_HASH 16
/* The recomputed h3 differs. */
#define BANQUET_REFUSED_THIRD_HASH 17
/* Card text breaks its form. Place: the first bad line, counted from 1; 45 for bytes after the last. */
#define BANQUET_REFUSED_TEXT_FORM 18

/*
 * What the number of an answer, BANQUET_NUMBER(answer), means: a constant text
 * of one line. Where a place belongs to the number, the text says what
 * BANQUET_PLACE(answer) is. For all numbers over 18 it is one text that says so.
 */
static inline const char *banquet_refusal_text(uint32_t number)
{
    static const char *const texts[] = {
        "accepted",
        "the key is not 16 bytes",
        "the public key is not 32 bytes, or the plaintext not 16",
        "the message is over 32,768 bytes",
        "the salt is not 32 bytes, or the first challenge not 40",
        "the seeds are not 656 bytes, or the seed for opening not 16",
        "the output is too short, or the signature or opening has not its length",
        "the work slice is under 65,536 bytes",
        "the execution is over 40",
        "the hidden party is over 15",
        "the second challenge is below 20",
        "an S-box input is zero under this key (place: the lowest such S-box)",
        "the key does not take the plaintext to the ciphertext",
        "a shown party's commitment differs (place: the lowest such party)",
        "a shown party's share differs (place: the lowest such party), or the output shares miss the ciphertext (place 16)",
        "c is not the sum of a_j times b_j (place: the lowest such execution)",
        "the first hash differs: public key, message, salt, commitments or offsets are not what was signed",
        "the third hash differs",
        "the card's text breaks its form (place: the first bad line; 45 for bytes after the last)"
    };

    return number < sizeof texts / sizeof texts[0] ? texts[number] : "not a number that this library answers";
}

/* ---- calls ---- */

/*
 * Makes a public key from a key and a plaintext.
 *
 *   key        BANQUET_KEY_BYTES, random
 *   plaintext  BANQUET_PLAINTEXT_BYTES, random or chosen
 *   out        at least BANQUET_PUBLIC_KEY_BYTES; the public key
 *
 * Refusals: 1, 2, 6, 11. About half of all keys are refused by 11; then take
 * another key.
 */
uint32_t banquet_public_key(const uint8_t *key, size_t key_len,
                            const uint8_t *plaintext, size_t plaintext_len,
                            uint8_t *out, size_t out_len);

/*
 * Signs a message.
 *
 *   key         BANQUET_KEY_BYTES
 *   public_key  BANQUET_PUBLIC_KEY_BYTES, made from that key
 *   message     at most BANQUET_MAX_MESSAGE_BYTES
 *   salt        BANQUET_SALT_BYTES, random and new; it stands in the signature
 *   seeds       BANQUET_SEEDS_BYTES, random, new and secret
 *   out         at least BANQUET_SIGNATURE_BYTES; the signature
 *   work        at least BANQUET_WORK_BYTES
 *
 * Refusals: 1, 2, 3, 4, 5, 6, 7, 11, 12.
 */
uint32_t banquet_sign(const uint8_t *key, size_t key_len,
                      const uint8_t *public_key, size_t public_key_len,
                      const uint8_t *message, size_t message_len,
                      const uint8_t *salt, size_t salt_len,
                      const uint8_t *seeds, size_t seeds_len,
                      uint8_t *out, size_t out_len,
                      uint8_t *work, size_t work_len);

/*
 * Checks a signature of a message. 0 means that it holds under this public key.
 *
 *   public_key  BANQUET_PUBLIC_KEY_BYTES
 *   message     at most BANQUET_MAX_MESSAGE_BYTES
 *   signature   exactly BANQUET_SIGNATURE_BYTES
 *   work        at least BANQUET_WORK_BYTES
 *
 * Refusals: 2, 3, 6, 7, 15, 16, 17.
 */
uint32_t banquet_verify(const uint8_t *public_key, size_t public_key_len,
                        const uint8_t *message, size_t message_len,
                        const uint8_t *signature, size_t signature_len,
                        uint8_t *work, size_t work_len);

/*
 * Opens one execution under given challenges.
 *
 *   key               BANQUET_KEY_BYTES
 *   public_key        BANQUET_PUBLIC_KEY_BYTES, made from that key
 *   salt              BANQUET_SALT_BYTES, random and new
 *   seed              BANQUET_SEED_BYTES, random, new and secret
 *   execution         0 to 40
 *   first_challenge   BANQUET_FIRST_CHALLENGE_BYTES
 *   second_challenge  20 or more
 *   hidden            0 to 15, the party that is not shown
 *   out               at least BANQUET_OPENING_BYTES; the opening
 *   work              at least BANQUET_WORK_BYTES
 *
 * Two openings under one salt, seed and execution that hide different parties
 * give the key away.
 *
 * Refusals: 1, 2, 4, 5, 6, 7, 8, 9, 10, 11, 12.
 */
uint32_t banquet_open(const uint8_t *key, size_t key_len,
                      const uint8_t *public_key, size_t public_key_len,
                      const uint8_t *salt, size_t salt_len,
                      const uint8_t *seed, size_t seed_len,
                      uint32_t execution,
                      const uint8_t *first_challenge, size_t first_challenge_len,
                      uint32_t second_challenge,
                      uint32_t hidden,
                      uint8_t *out, size_t out_len,
                      uint8_t *work, size_t work_len);

/*
 * Checks an opening. 0 means that it holds.
 *
 *   public_key  BANQUET_PUBLIC_KEY_BYTES
 *   opening     exactly BANQUET_OPENING_BYTES
 *   work        at least BANQUET_WORK_BYTES
 *
 * The hidden party's seed is not in an opening, so what the opening says of that
 * party cannot be recomputed. Its commitment (32 bytes from byte 33 + 32 *
 * hidden on; hidden is byte 2489) is bound by nothing: with any other bytes there
 * the answer is the same. Its output share is bound by the ciphertext (14, place
 * 16), its shares of c, a and b by the product of the sums alone (15). So from
 * an opening that holds anyone can make others that hold. One who needs the
 * hidden commitment to be a certain one has to compare it. In a signature the
 * first hash binds it (16).
 *
 * Refusals: 2, 6, 7, 8, 9, 10, 13, 14, 15.
 */
uint32_t banquet_verify_opening(const uint8_t *public_key, size_t public_key_len,
                                const uint8_t *opening, size_t opening_len,
                                uint8_t *work, size_t work_len);

/*
 * Checks a card given as text: lines of lower-case hexadecimal, each ended by
 * byte 0x0A: public key, message (may be empty), the signature's first 96 bytes,
 * its 41 frames of 480 bytes; then nothing. 0 means that it holds under the
 * public key on the card: anyone can make a key, so compare the text's first 64
 * digits with the public key that you trust.
 *
 *   text  at most BANQUET_MAX_CARD_BYTES; a longer one breaks its form
 *   work  at least BANQUET_WORK_BYTES
 *
 * Refusals: 18 before all others, then 7, 15, 16, 17.
 */
uint32_t banquet_verify_card(const uint8_t *text, size_t text_len,
                             uint8_t *work, size_t work_len);

/* ---- secrets on the stack ---- */

#ifdef __GNUC__
#define BANQUET_NEVER_INLINED __attribute__((noinline, unused))
#define BANQUET_ALWAYS_INLINED inline __attribute__((always_inline))
#define BANQUET_NOT_LAST() __asm__ volatile("" : : : "memory")
#else
#define BANQUET_NEVER_INLINED
#define BANQUET_ALWAYS_INLINED inline
#define BANQUET_NOT_LAST() ((void)0)
#endif

/* The array is volatile: stores to what is about to be gone would be dropped else. */
static BANQUET_NEVER_INLINED void banquet_wipe_below(void)
{
    volatile uint64_t gone[(BANQUET_STACK_BYTES - 256) / 8];
    size_t i;

    for (i = 0; i < sizeof gone / sizeof gone[0]; i++)
        gone[i] = 0;
}

/*
 * Overwrites the stack below its caller with zeros, deeper than any call goes.
 * Call it after public_key, sign and open, whatever they answer, from the
 * function that called them: from one above it reaches less deep, by what the
 * frames between take. It takes at most BANQUET_STACK_BYTES of stack itself. Of
 * the 32 bytes next to the caller's frame, where its own frame begins, it may
 * leave some as they were.
 *
 * What it calls must not be inlined, since the array would then be a part of the
 * caller's frame, and what the calls left lies below that; nor jumped to as the
 * last thing that the caller does, since that frame would then be gone. GNU C and
 * clang are told so. With another compiler look at what it makes of it.
 */
static BANQUET_ALWAYS_INLINED void banquet_wipe_stack(void)
{
    banquet_wipe_below();
    BANQUET_NOT_LAST();
}

#undef BANQUET_NEVER_INLINED
#undef BANQUET_ALWAYS_INLINED
#undef BANQUET_NOT_LAST

#ifdef __cplusplus
}
#endif

#endif
