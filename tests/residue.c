/*
 * Searches the stack that a call has left for what is secret, whole or 8 bytes of it one after the other: the key; key xor plaintext, which gives
 * the key away; the root seeds; and the seeds of the hidden parties, which give it away, too. First as the call leaves the stack, then after
 * banquet_wipe_stack, which has to leave none of it. Prints in how many places it is found. The header says what is found, and this fails where it is
 * wrong. tests/interface builds and runs this, in C and in C++.
 */
#include "calls.h"

enum { MARK = 0x5a, SECRET = 16, PART = 8, EDGE = 32, SHORT = 512, COMMITMENTS = 33, FRAME_COMMITMENT = 64 };
enum { KEY, XOR, ROOTS, HIDDEN, KINDS };

static const char *const kinds[KINDS] = {"key", "key xor plain", "root seeds", "hidden seeds"};

/* The secrets of each kind, `count` of them. */
static uint8_t secrets[KINDS][BANQUET_EXECUTIONS][SECRET];
static size_t count[KINDS];

/* The seed of a party of execution e: an opening that hides the party beside it ends with that seed. */
static void seed_of(uint32_t e, uint32_t party, uint8_t *seed)
{
    expect(OPEN, 0, 0,
           banquet_open(lent.key, lent.key_len, lent.public_key, lent.public_key_len, lent.salt, lent.salt_len,
                        lent.seeds + BANQUET_SEED_BYTES * e, BANQUET_SEED_BYTES, e, lent.first_challenge, lent.first_challenge_len,
                        lent.second_challenge, party ^ 1, out, sizeof out, work, sizeof work));
    memcpy(seed, out + BANQUET_OPENING_BYTES - BANQUET_SEED_BYTES, BANQUET_SEED_BYTES);
}

/* The party that the signature hides in execution e: its commitment stands in the frame. All of them stand in an opening, which is in `out`. */
static uint32_t hidden_in_frame(uint32_t e)
{
    const uint8_t *commitment = lent.signature + HEAD + FRAME * e + FRAME_COMMITMENT;
    uint32_t party = 0;

    while (party < BANQUET_PARTIES && memcmp(out + COMMITMENTS + 32 * party, commitment, 32) != 0)
        party++;
    return party;
}

/* Finds out what is secret in a call. */
static void know_secrets(int call)
{
    uint32_t e;
    size_t i;

    count[KEY] = count[XOR] = 1;
    for (i = 0; i < SECRET; i++) {
        secrets[KEY][0][i] = lent.key[i];
        secrets[XOR][0][i] = lent.key[i] ^ lent.plaintext[i];
    }
    count[ROOTS] = count[HIDDEN] = call == OPEN ? 1 : BANQUET_EXECUTIONS;
    for (e = 0; e < count[ROOTS]; e++) {
        memcpy(secrets[ROOTS][e], lent.seeds + BANQUET_SEED_BYTES * e, SECRET);
        seed_of(e, lent.hidden, secrets[HIDDEN][e]);
        if (call != OPEN)
            seed_of(e, hidden_in_frame(e), secrets[HIDDEN][e]);
    }
}

/* In how many places n bytes of a secret of this kind, one after the other, stand in the dead stack. */
static unsigned long places(int kind, size_t n)
{
    unsigned long found = 0;
    size_t k, at, from;

    for (k = 0; k < count[kind]; k++)
        for (from = 0; from + n <= SECRET; from++)
            for (at = 0; at + n <= DEAD; at++)
                if (dead[at] == secrets[kind][k][from] && memcmp(dead + at, secrets[kind][k] + from, n) == 0)
                    found++;
    return found;
}

/*
 * Makes a call and prints what is found after it. For each kind `found` has + if it has to be found whole, / if PART bytes of it have to be, and - if
 * nothing of it may be.
 */
static int search(int call, uint32_t number, int wiped, const char *found)
{
    int failed = 0;
    int kind;

    expect(call, number, 0, make(call, MARK, wiped));
    printf("%-14s %6u  %-5s", names[call], (unsigned)number, wiped ? "yes" : "no");
    for (kind = 0; kind < KINDS; kind++) {
        const unsigned long whole = places(kind, SECRET), part = places(kind, PART);

        printf("  %9lu %3lu", whole, part);
        if (found[kind] == '+' ? whole == 0 : found[kind] == '/' ? part == 0 : part > 0)
            failed = 1;
    }
    puts(failed ? "  FAILED" : "");
    return failed;
}

/*
 * Signs with a large array of its own, and wipes as its last act. Were the wipe jumped to, it would begin above the array and end before what the call
 * left.
 */
static __attribute__((noinline)) void sign_and_wipe(void)
{
    volatile uint8_t large[BANQUET_STACK_BYTES];

    large[0] = large[sizeof large - 1] = MARK;
    expect(SIGN, 0, 0, banquet_sign(lent.key, lent.key_len, lent.public_key, lent.public_key_len, lent.message, lent.message_len, lent.salt,
                                    lent.salt_len, lent.seeds, lent.seeds_len, out, lent.out_len, work, lent.work_len));
    banquet_wipe_stack();
}

/* Whether a wipe that is its caller's last act leaves nothing of the key. */
static int wipes_last(void)
{
    unsigned long found;

    instead = sign_and_wipe;
    make(CALLS, MARK, 0);
    instead = NULL;
    found = places(KEY, PART) + places(XOR, PART);
    printf("after sign and, last, banquet_wipe_stack 8 bytes of the key are found in %lu places\n", found);
    return found == 0;
}

/*
 * The wipe alone, on marks. Below the EDGE bytes next to its caller, where its own frame begins, it leaves no mark down to BANQUET_STACK_BYTES less
 * SHORT. It takes no more than BANQUET_STACK_BYTES itself.
 */
static int wipes_all(void)
{
    size_t at, taken, left = 0;

    make(CALLS, MARK, 1);
    for (at = DEAD - (BANQUET_STACK_BYTES - SHORT); at < DEAD - EDGE; at++)
        left += dead[at] == MARK;
    for (at = 0; at < DEAD && dead[at] == MARK; at++)
        ;
    taken = DEAD - at;
    printf("banquet_wipe_stack takes %lu bytes of stack and leaves %lu as they were\n", (unsigned long)taken, (unsigned long)left);
    return left == 0 && taken <= BANQUET_STACK_BYTES;
}

int main(void)
{
    int failed = 0;
    int wiped, kind;

    lend(100, 5);
    printf("%-14s %6s  %-5s", "call", "answer", "wiped");
    for (kind = 0; kind < KINDS; kind++)
        printf("  %13s", kinds[kind]);
    puts("  (whole, 8 bytes)");
    for (wiped = 0; wiped < 2; wiped++) {
        know_secrets(SIGN);
        failed |= search(PUBLIC_KEY, 0, wiped, wiped ? "----" : "/+--");
        failed |= search(SIGN, 0, wiped, wiped ? "----" : "-+-+");
        failed |= search(VERIFY, 0, wiped, "----");
        failed |= search(VERIFY_CARD, 0, wiped, "----");
        know_secrets(OPEN);
        failed |= search(OPEN, 0, wiped, wiped ? "----" : "-+-+");
        failed |= search(VERIFY_OPENING, 0, wiped, "----");
        lent.public_key[31] ^= 1;
        failed |= search(SIGN, BANQUET_REFUSED_WRONG_KEY, wiped, wiped ? "----" : "/+--");
        failed |= search(OPEN, BANQUET_REFUSED_WRONG_KEY, wiped, wiped ? "----" : "/+--");
        lent.public_key[31] ^= 1;
    }
    failed |= !wipes_last();
    failed |= !wipes_all();
    return failed ? EXIT_FAILURE : EXIT_SUCCESS;
}
