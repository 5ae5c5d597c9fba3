/*
 * Signs pigment lines, wipes what is secret, verifies the signature, then alters one byte and shows the refusal.
 *
 * From the repository's root, after `make`:
 *
 *     gcc -std=c99 -Wall -Wextra -pedantic -O2 -Iinclude examples/c/sign_and_verify.c \
 *         target/staticlib/libcapi.a -o target/sign_and_verify
 *     target/sign_and_verify
 */
#include <banquet.h>

#include <inttypes.h>
#include <stdio.h>
#include <stdlib.h>

/* Reads n random bytes, or ends the program. */
static void random_bytes(uint8_t *out, size_t n)
{
    FILE *source = fopen("/dev/urandom", "rb");

    /* without a buffer, in which the bytes would stay */
    if (source == NULL || setvbuf(source, NULL, _IONBF, 0) != 0 || fread(out, 1, n, source) != n) {
        fputs("no random bytes from /dev/urandom\n", stderr);
        exit(EXIT_FAILURE);
    }
    fclose(source);
}

/* Overwrites n secret bytes. By volatile writes: a compiler may drop a memset of what is not read again. */
static void wipe(uint8_t *secret, size_t n)
{
    volatile uint8_t *at = secret;

    while (n-- > 0)
        *at++ = 0;
}

/* Prints an answer in the words of the card program, and what its number means. */
static void print_answer(const char *what, uint32_t answer)
{
    const char *text = banquet_refusal_text(BANQUET_NUMBER(answer));

    if (answer == BANQUET_ACCEPTED)
        printf("%s: %s\n", what, text);
    else
        printf("%s: refused %" PRIu32 " %" PRIu32 ": %s\n", what, BANQUET_NUMBER(answer), BANQUET_PLACE(answer), text);
}

/* Ends the program unless an answer is what was expected. */
static void expect(uint32_t number, uint32_t answer)
{
    if (BANQUET_NUMBER(answer) != number)
        exit(EXIT_FAILURE);
}

/* Makes a key and its public key: keys are tried until one meets no zero S-box input. */
static void make_keys(uint8_t *key, uint8_t *public_key)
{
    uint8_t plaintext[BANQUET_PLAINTEXT_BYTES];
    uint32_t answer;

    random_bytes(plaintext, sizeof plaintext);
    do {
        random_bytes(key, BANQUET_KEY_BYTES);
        answer = banquet_public_key(key, BANQUET_KEY_BYTES, plaintext, sizeof plaintext,
                                    public_key, BANQUET_PUBLIC_KEY_BYTES);
        banquet_wipe_stack();
        print_answer("make a public key", answer);
    } while (BANQUET_NUMBER(answer) == BANQUET_REFUSED_ZERO_INPUT);
    expect(BANQUET_ACCEPTED, answer);
}

int main(void)
{
    /* static, so that the stack is left to the calls */
    static uint8_t signature[BANQUET_SIGNATURE_BYTES], work[BANQUET_WORK_BYTES];
    uint8_t key[BANQUET_KEY_BYTES], public_key[BANQUET_PUBLIC_KEY_BYTES];
    uint8_t salt[BANQUET_SALT_BYTES], seeds[BANQUET_SEEDS_BYTES];
    uint8_t message[] = "PB29 12,5\nPW6 250\n";
    const size_t message_len = sizeof message - 1; /* without the string's closing zero */
    uint32_t answer;

    make_keys(key, public_key);

    /* salt and seeds are new for every signature */
    random_bytes(salt, sizeof salt);
    random_bytes(seeds, sizeof seeds);
    answer = banquet_sign(key, sizeof key, public_key, sizeof public_key, message, message_len,
                          salt, sizeof salt, seeds, sizeof seeds,
                          signature, sizeof signature, work, sizeof work);
    /* what sign left on the stack, and our own copies; one who signs again keeps the key. `work` is zero already */
    banquet_wipe_stack();
    wipe(seeds, sizeof seeds);
    wipe(key, sizeof key);
    print_answer("sign", answer);
    expect(BANQUET_ACCEPTED, answer);

    answer = banquet_verify(public_key, sizeof public_key, message, message_len,
                            signature, sizeof signature, work, sizeof work);
    print_answer("verify", answer);
    expect(BANQUET_ACCEPTED, answer);

    message[5] = '7'; /* 12,5 becomes 72,5 */
    answer = banquet_verify(public_key, sizeof public_key, message, message_len,
                            signature, sizeof signature, work, sizeof work);
    print_answer("verify 72,5 for 12,5", answer);
    expect(BANQUET_REFUSED_FIRST_HASH, answer);

    answer = banquet_verify(public_key, sizeof public_key, message, message_len,
                            signature, sizeof signature - 1, work, sizeof work);
    print_answer("verify a signature cut short", answer);
    expect(BANQUET_REFUSED_FILE_LENGTH, answer);

    return EXIT_SUCCESS;
}
