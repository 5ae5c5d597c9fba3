/*
 * Measures how much stack each call takes, counted from its caller's stack pointer: the deepest byte that changed tells. A call is made twice, on two
 * marks, so that no byte written is taken for one untouched. Of each call the most is printed, over what it accepts and what it refuses. Fails if
 * that is above what the header says, or more than SLACK below it. tests/interface and bench/compare build and run this; with an argument it prints
 * every case.
 */
#include "calls.h"

enum { SLACK = 512 };

/* Where the parts of an opening begin, and those of a signature's frame. */
enum { EXECUTION_AT = 32, COMMITMENTS = 33, OUTPUTS = 545, SECOND_AT = 1141, SHARES_C = 1145, SHARES_A = 1209, SHARES_B = 1849, HIDDEN_AT = 2489 };
enum { FRAME_COMMITMENT = 64, FRAME_OFFSETS = 312, FRAME_C = 396 };

static const size_t said[CALLS] = {BANQUET_STACK_PUBLIC_KEY, BANQUET_STACK_SIGN, BANQUET_STACK_VERIFY,
                                   BANQUET_STACK_OPEN, BANQUET_STACK_VERIFY_OPENING, BANQUET_STACK_VERIFY_CARD};
static size_t most[CALLS];
static struct lent good;
static int printing;

static size_t depth(void)
{
    size_t untouched = 0;

    while (untouched < DEAD && dead[untouched] == dead[0])
        untouched++;
    return DEAD - untouched;
}

/* Makes a call with what is lent now, expects its answer, measures it, and lends what is good again. */
static void measure(int call, uint32_t number, uint32_t place)
{
    size_t bytes;
    uint8_t mark;

    for (mark = 0x5a; mark != 0; mark = mark == 0x5a ? 0xa5 : 0) {
        expect(call, number, place, make(call, mark, 0));
        bytes = depth();
        if (printing)
            printf("%s %u %u: %zu\n", names[call], (unsigned)number, (unsigned)place, bytes);
        if (bytes > most[call])
            most[call] = bytes;
    }
    lent = good;
}

/* A key that meets a zero at S-box 40: the example of FIPS 197. */
static void lend_bad_key(void)
{
    uint8_t i;

    for (i = 0; i < 16; i++) {
        lent.key[i] = i;
        lent.plaintext[i] = lent.public_key[i] = (uint8_t)(0x11 * i);
    }
}

static void measure_public_key(void)
{
    measure(PUBLIC_KEY, 0, 0);
    lent.key_len--;
    measure(PUBLIC_KEY, BANQUET_REFUSED_KEY_LENGTH, 0);
    lent.plaintext_len--;
    measure(PUBLIC_KEY, BANQUET_REFUSED_PUBLIC_KEY_LENGTH, 0);
    lent.out_len = BANQUET_PUBLIC_KEY_BYTES - 1;
    measure(PUBLIC_KEY, BANQUET_REFUSED_FILE_LENGTH, 0);
    lend_bad_key();
    measure(PUBLIC_KEY, BANQUET_REFUSED_ZERO_INPUT, 40);
}

/* What sign and open refuse alike. */
static void measure_with_key(int call)
{
    measure(call, 0, 0);
    lent.key_len--;
    measure(call, BANQUET_REFUSED_KEY_LENGTH, 0);
    lent.public_key_len--;
    measure(call, BANQUET_REFUSED_PUBLIC_KEY_LENGTH, 0);
    lent.salt_len--;
    measure(call, BANQUET_REFUSED_SALT_LENGTH, 0);
    lent.seeds_len--;
    lent.seed_len--;
    measure(call, BANQUET_REFUSED_SEED_LENGTH, 0);
    lent.out_len = (call == SIGN ? BANQUET_SIGNATURE_BYTES : BANQUET_OPENING_BYTES) - 1;
    measure(call, BANQUET_REFUSED_FILE_LENGTH, 0);
    lent.work_len--;
    measure(call, BANQUET_REFUSED_WORK_LENGTH, 0);
    lend_bad_key();
    measure(call, BANQUET_REFUSED_ZERO_INPUT, 40);
    lent.public_key[31] ^= 1;
    measure(call, BANQUET_REFUSED_WRONG_KEY, 0);
}

static void measure_sign(void)
{
    measure_with_key(SIGN);
    lent.message_len = BANQUET_MAX_MESSAGE_BYTES + 1;
    measure(SIGN, BANQUET_REFUSED_MESSAGE_LENGTH, 0);
}

/* What verify and verify_card refuse alike: the signature of a card is in its text. */
static void measure_signature(int call)
{
    int e;

    measure(call, 0, 0);
    lent.work_len--;
    measure(call, BANQUET_REFUSED_WORK_LENGTH, 0);
    for (e = 0; e < BANQUET_EXECUTIONS; e += BANQUET_EXECUTIONS - 1) {
        lent.signature[HEAD + FRAME * e + FRAME_C] ^= 1;
        write_card();
        measure(call, BANQUET_REFUSED_PRODUCT, (uint32_t)e);
        /* in a signature, other than in an opening, the first hash binds the hidden party's commitment */
        lent.signature[HEAD + FRAME * e + FRAME_COMMITMENT] ^= 1;
        write_card();
        measure(call, BANQUET_REFUSED_FIRST_HASH, 0);
        lent.signature[HEAD + FRAME * e + FRAME_OFFSETS] ^= 1;
        write_card();
        measure(call, BANQUET_REFUSED_THIRD_HASH, 0);
    }
    lent.signature[0] ^= 1; /* the salt */
    write_card();
    measure(call, BANQUET_REFUSED_FIRST_HASH, 0);
    if (lent.message_len > 0) {
        lent.message[lent.message_len - 1] ^= 1;
        write_card();
        measure(call, BANQUET_REFUSED_FIRST_HASH, 0);
    }
}

static void measure_verify(void)
{
    measure_signature(VERIFY);
    lent.public_key_len--;
    measure(VERIFY, BANQUET_REFUSED_PUBLIC_KEY_LENGTH, 0);
    lent.message_len = BANQUET_MAX_MESSAGE_BYTES + 1;
    measure(VERIFY, BANQUET_REFUSED_MESSAGE_LENGTH, 0);
    lent.signature_len--;
    measure(VERIFY, BANQUET_REFUSED_FILE_LENGTH, 0);
}

static void measure_card(void)
{
    /* in the last byte of lines 1, 2, 3, 24 and 44 */
    const size_t last[] = {64, 65 + 2 * lent.message_len, 258 + 2 * lent.message_len, 258 + 2 * lent.message_len + 961 * 21, lent.text_len - 1};
    const uint32_t lines[] = {1, 2, 3, 24, 44};
    size_t i;

    measure_signature(VERIFY_CARD);
    for (i = 0; i < sizeof last / sizeof last[0]; i++) {
        lent.text[last[i]] = 'x';
        measure(VERIFY_CARD, BANQUET_REFUSED_TEXT_FORM, lines[i]);
    }
    lent.text_len--;
    measure(VERIFY_CARD, BANQUET_REFUSED_TEXT_FORM, 44);
    lent.text_len++;
    measure(VERIFY_CARD, BANQUET_REFUSED_TEXT_FORM, 45);
    lent.text_len = 0;
    measure(VERIFY_CARD, BANQUET_REFUSED_TEXT_FORM, 1);
}

static void measure_open(void)
{
    measure_with_key(OPEN);
    lent.first_challenge_len--;
    measure(OPEN, BANQUET_REFUSED_SALT_LENGTH, 0);
    lent.execution = BANQUET_EXECUTIONS;
    measure(OPEN, BANQUET_REFUSED_EXECUTION, 0);
    lent.hidden = BANQUET_PARTIES;
    measure(OPEN, BANQUET_REFUSED_HIDDEN_PARTY, 0);
    lent.second_challenge = BANQUET_MIN_SECOND_CHALLENGE - 1;
    measure(OPEN, BANQUET_REFUSED_SECOND_CHALLENGE, 0);
}

static void measure_opening(void)
{
    /* a row of each part that is by party: where the first is, its bytes, and the refusal of a shown party's */
    const struct part {
        size_t at, bytes;
        uint32_t number;
    } parts[] = {{COMMITMENTS, 32, BANQUET_REFUSED_COMMITMENT}, {OUTPUTS, 16, BANQUET_REFUSED_SHARE}, {SHARES_C, 4, BANQUET_REFUSED_SHARE},
                 {SHARES_A, 40, BANQUET_REFUSED_SHARE}, {SHARES_B, 40, BANQUET_REFUSED_SHARE}};
    const struct part *part;
    uint32_t i;

    measure(VERIFY_OPENING, 0, 0);
    lent.public_key_len--;
    measure(VERIFY_OPENING, BANQUET_REFUSED_PUBLIC_KEY_LENGTH, 0);
    lent.opening_len--;
    measure(VERIFY_OPENING, BANQUET_REFUSED_FILE_LENGTH, 0);
    lent.work_len--;
    measure(VERIFY_OPENING, BANQUET_REFUSED_WORK_LENGTH, 0);
    lent.opening[EXECUTION_AT] = BANQUET_EXECUTIONS;
    measure(VERIFY_OPENING, BANQUET_REFUSED_EXECUTION, 0);
    lent.opening[HIDDEN_AT] = BANQUET_PARTIES;
    measure(VERIFY_OPENING, BANQUET_REFUSED_HIDDEN_PARTY, 0);
    memset(lent.opening + SECOND_AT, 0, 4);
    measure(VERIFY_OPENING, BANQUET_REFUSED_SECOND_CHALLENGE, 0);
    for (part = parts; part < parts + sizeof parts / sizeof parts[0]; part++) {
        for (i = 0; i < BANQUET_PARTIES; i++) {
            lent.opening[part->at + part->bytes * i] ^= 1;
            if (i != lent.hidden)
                measure(VERIFY_OPENING, part->number, i);
            else if (part->at == COMMITMENTS) /* bound by nothing */
                measure(VERIFY_OPENING, 0, 0);
            else if (part->at == OUTPUTS)
                measure(VERIFY_OPENING, BANQUET_REFUSED_SHARE, BANQUET_PARTIES);
            else
                measure(VERIFY_OPENING, BANQUET_REFUSED_PRODUCT, lent.execution);
        }
    }
}

int main(int count, char **arguments)
{
    const size_t lengths[] = {BANQUET_MAX_MESSAGE_BYTES, 0};
    const uint32_t hidden[] = {0, 11, BANQUET_PARTIES - 1};
    int failed = 0;
    int call;
    size_t i;

    printing = count > 1;
    (void)arguments;
    for (i = 0; i < sizeof lengths / sizeof lengths[0]; i++) {
        lend(lengths[i], 0);
        good = lent;
        measure_public_key();
        measure_sign();
        measure_verify();
        measure_card();
    }
    for (i = 0; i < sizeof hidden / sizeof hidden[0]; i++) {
        lend(0, hidden[i]);
        good = lent;
        measure_open();
        measure_opening();
    }
    for (call = 0; call < CALLS; call++) {
        printf("%s %zu\n", names[call], most[call]);
        if (most[call] > said[call] || most[call] + SLACK < said[call]) {
            fprintf(stderr, "%s takes %zu bytes of stack; the header says %zu\n", names[call], most[call], said[call]);
            failed = 1;
        }
        if (most[call] > BANQUET_STACK_BYTES) {
            fprintf(stderr, "%s takes more than BANQUET_STACK_BYTES\n", names[call]);
            failed = 1;
        }
    }
    return failed ? EXIT_FAILURE : EXIT_SUCCESS;
}
