/*
 * The six calls, for tests/stack.c and tests/residue.c. A thread makes a call on a stack of its own. Every byte below the caller is known before the
 * call and copied right after it, so that what is seen there is the call's, and not that of the thread's start or end.
 */
#ifndef CALLS_H
#define CALLS_H

#ifndef _GNU_SOURCE
#define _GNU_SOURCE
#endif
#include <banquet.h>

#include <pthread.h>
#include <stdio.h>
#include <stdlib.h>
#include <string.h>

enum { STACK = 1 << 19, DEAD = 3 << 16, HEAD = 96, FRAME = 480 };
enum { PUBLIC_KEY, SIGN, VERIFY, OPEN, VERIFY_OPENING, VERIFY_CARD, CALLS };

static const char *const names[CALLS] = {"public_key", "sign", "verify", "open", "verify_opening", "verify_card"};

/* What is lent to the calls. A length that is altered stands for a slice of that length; out and work are beside it. */
struct lent {
    uint8_t key[BANQUET_KEY_BYTES], plaintext[BANQUET_PLAINTEXT_BYTES], public_key[BANQUET_PUBLIC_KEY_BYTES];
    uint8_t message[BANQUET_MAX_MESSAGE_BYTES + 1], salt[BANQUET_SALT_BYTES], seeds[BANQUET_SEEDS_BYTES];
    uint8_t first_challenge[BANQUET_FIRST_CHALLENGE_BYTES], signature[BANQUET_SIGNATURE_BYTES], opening[BANQUET_OPENING_BYTES];
    uint8_t text[BANQUET_MAX_CARD_BYTES + 1];
    size_t key_len, plaintext_len, public_key_len, message_len, salt_len, seeds_len, seed_len;
    size_t first_challenge_len, signature_len, opening_len, text_len, work_len, out_len;
    uint32_t execution, second_challenge, hidden;
};

static struct lent lent;
static uint8_t out[BANQUET_SIGNATURE_BYTES], work[BANQUET_WORK_BYTES];

/* What is done in place of a call, if anything. */
static void (*instead)(void);

/* One call: which, or CALLS for `instead`; what every byte below the caller is before it; whether the caller then wipes the stack; and the answer. */
struct made {
    int call;
    uint8_t mark;
    int wiped;
    uint32_t answer;
};

/* The DEAD bytes below the caller, right after the call: the last of them is next to the caller. */
static uint8_t dead[DEAD];

/*
 * Makes the call in this function's frame, and touches the stack below it in no other way: `at` is volatile, so that no loop becomes a call of memset
 * or memcpy.
 */
static void *run(void *argument)
{
    struct made *made = (struct made *)argument;
    volatile uint8_t *at;
    uint8_t *top;
    size_t i;

    __asm__ volatile("mov %%rsp, %0" : "=r"(top));
    at = top - DEAD;
    for (i = 0; i < DEAD; i++)
        at[i] = made->mark;
    switch (made->call) {
    case PUBLIC_KEY:
        made->answer = banquet_public_key(lent.key, lent.key_len, lent.plaintext, lent.plaintext_len, out, lent.out_len);
        break;
    case SIGN:
        made->answer = banquet_sign(lent.key, lent.key_len, lent.public_key, lent.public_key_len, lent.message, lent.message_len,
                                    lent.salt, lent.salt_len, lent.seeds, lent.seeds_len, out, lent.out_len, work, lent.work_len);
        break;
    case VERIFY:
        made->answer = banquet_verify(lent.public_key, lent.public_key_len, lent.message, lent.message_len,
                                      lent.signature, lent.signature_len, work, lent.work_len);
        break;
    case OPEN:
        made->answer = banquet_open(lent.key, lent.key_len, lent.public_key, lent.public_key_len, lent.salt, lent.salt_len,
                                    lent.seeds, lent.seed_len, lent.execution, lent.first_challenge, lent.first_challenge_len,
                                    lent.second_challenge, lent.hidden, out, lent.out_len, work, lent.work_len);
        break;
    case VERIFY_OPENING:
        made->answer = banquet_verify_opening(lent.public_key, lent.public_key_len, lent.opening, lent.opening_len, work, lent.work_len);
        break;
    case VERIFY_CARD:
        made->answer = banquet_verify_card(lent.text, lent.text_len, work, lent.work_len);
        break;
    default:
        if (instead != NULL)
            instead();
    }
    if (made->wiped)
        banquet_wipe_stack();
    for (i = 0; i < DEAD; i++)
        dead[i] = at[i];
    return NULL;
}

/* Makes a call on a stack of its own, and returns its answer. */
static uint32_t make(int call, uint8_t mark, int wiped)
{
    static uint8_t stack[STACK] __attribute__((aligned(4096)));
    struct made made;
    pthread_attr_t attributes;
    pthread_t thread;

    made.call = call;
    made.mark = mark;
    made.wiped = wiped;
    made.answer = 0;
    if (pthread_attr_init(&attributes) || pthread_attr_setstack(&attributes, stack, sizeof stack)
        || pthread_create(&thread, &attributes, run, &made) || pthread_join(thread, NULL) || pthread_attr_destroy(&attributes)) {
        fputs("no thread\n", stderr);
        exit(EXIT_FAILURE);
    }
    return made.answer;
}

static void expect(int call, uint32_t number, uint32_t place, uint32_t answer)
{
    if (BANQUET_NUMBER(answer) == number && BANQUET_PLACE(answer) == place)
        return;
    fprintf(stderr, "%s answers %u %u for %u %u\n", names[call], (unsigned)BANQUET_NUMBER(answer), (unsigned)BANQUET_PLACE(answer),
            (unsigned)number, (unsigned)place);
    exit(EXIT_FAILURE);
}

/* Bytes that have no pattern, the same in every run. */
static void fill(uint8_t *bytes, size_t n)
{
    static uint32_t state = 1;
    size_t i;

    for (i = 0; i < n; i++) {
        state = state * 1664525u + 1013904223u;
        bytes[i] = (uint8_t)(state >> 24);
    }
}

static uint8_t *write_line(uint8_t *at, const uint8_t *bytes, size_t n)
{
    size_t i;

    for (i = 0; i < n; i++) {
        *at++ = (uint8_t)"0123456789abcdef"[bytes[i] / 16];
        *at++ = (uint8_t)"0123456789abcdef"[bytes[i] % 16];
    }
    *at++ = '\n';
    return at;
}

/* Writes the card of what is lent. */
static void write_card(void)
{
    uint8_t *at = lent.text;
    int e;

    at = write_line(at, lent.public_key, sizeof lent.public_key);
    at = write_line(at, lent.message, lent.message_len);
    at = write_line(at, lent.signature, HEAD);
    for (e = 0; e < BANQUET_EXECUTIONS; e++)
        at = write_line(at, lent.signature + HEAD + FRAME * e, FRAME);
    lent.text_len = (size_t)(at - lent.text);
}

/* Lends what every call accepts: a good key, what was made from it, a message of message_len bytes, and an opening that hides a party. */
static void lend(size_t message_len, uint32_t hidden)
{
    uint32_t answer;

    lent.key_len = sizeof lent.key;
    lent.plaintext_len = sizeof lent.plaintext;
    lent.public_key_len = sizeof lent.public_key;
    lent.message_len = message_len;
    lent.salt_len = sizeof lent.salt;
    lent.seeds_len = sizeof lent.seeds;
    lent.seed_len = BANQUET_SEED_BYTES;
    lent.first_challenge_len = sizeof lent.first_challenge;
    lent.signature_len = sizeof lent.signature;
    lent.opening_len = sizeof lent.opening;
    lent.work_len = sizeof work;
    lent.out_len = sizeof out;
    lent.execution = 0; /* its root seed is the first of the seeds */
    lent.second_challenge = 0x12345678;
    lent.hidden = hidden;
    fill(lent.plaintext, sizeof lent.plaintext);
    fill(lent.message, message_len);
    fill(lent.salt, sizeof lent.salt);
    fill(lent.seeds, sizeof lent.seeds);
    fill(lent.first_challenge, sizeof lent.first_challenge);
    do {
        fill(lent.key, sizeof lent.key);
        answer = make(PUBLIC_KEY, 0, 0);
    } while (BANQUET_NUMBER(answer) == BANQUET_REFUSED_ZERO_INPUT);
    expect(PUBLIC_KEY, 0, 0, answer);
    memcpy(lent.public_key, out, sizeof lent.public_key);
    expect(SIGN, 0, 0, make(SIGN, 0, 0));
    memcpy(lent.signature, out, sizeof lent.signature);
    expect(OPEN, 0, 0, make(OPEN, 0, 0));
    memcpy(lent.opening, out, sizeof lent.opening);
    write_card();
}

#endif
