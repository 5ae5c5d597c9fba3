/*
 * Holds the library to a file of known answers, vectors/banquet.rsp: of each case the public key, the signature, its check, and the check of what
 * was altered, and what every slice holds afterwards. Every line of the file has to be what its place asks for. tests/known_answers builds and runs
 * this.
 */
#include <banquet.h>

#include <stdarg.h>
#include <stdio.h>
#include <stdlib.h>
#include <string.h>

/* Slices that are written to are so much longer than they need be, and hold this byte before. */
enum { BEYOND = 17, MARK = 0xa5 };

/* One case, and its inputs as they were read: a call must not change them. */
struct inputs {
    uint8_t key[BANQUET_KEY_BYTES], plaintext[BANQUET_PLAINTEXT_BYTES], public_key[BANQUET_PUBLIC_KEY_BYTES];
    uint8_t message[BANQUET_MAX_MESSAGE_BYTES], salt[BANQUET_SALT_BYTES], seeds[BANQUET_SEEDS_BYTES], signature[BANQUET_SIGNATURE_BYTES];
};
static struct inputs lent, was;
static size_t message_len;

static uint8_t out[BANQUET_SIGNATURE_BYTES + BEYOND], work[BANQUET_WORK_BYTES + BEYOND];
static unsigned long passed, failed;

/* ---- the file */

static FILE *file;
static unsigned long line_number;
static char line[2 * BANQUET_SIGNATURE_BYTES + 2 * BANQUET_MAX_MESSAGE_BYTES + 100];

/* Ends the program: how many passed before is told as well. */
static void broken(const char *what, ...)
{
    va_list arguments;

    printf("FAILED: line %lu of the file: ", line_number);
    va_start(arguments, what);
    vprintf(what, arguments);
    va_end(arguments);
    printf("\n%lu passed, %lu failed\n", passed, failed + 1);
    exit(EXIT_FAILURE);
}

/* Reads a line, without its end. Gives 0 where the file ends. */
static int read_line(void)
{
    size_t n;

    line_number++;
    if (fgets(line, sizeof line, file) == NULL) {
        if (ferror(file))
            broken("cannot be read");
        return 0;
    }
    n = strlen(line);
    if (n == 0 || line[n - 1] != '\n')
        broken("is too long, or has no end");
    line[n - 1] = '\0';
    return 1;
}

static void read_empty_line(void)
{
    if (!read_line() || line[0] != '\0')
        broken("an empty line should be here");
}

/* What stands behind "name = " of the line that was read. */
static const char *value_of(const char *name)
{
    size_t n = strlen(name);

    if (strncmp(line, name, n) != 0 || strncmp(line + n, " = ", 3) != 0)
        broken("%s should be here", name);
    return line + n + 3;
}

static const char *read_field(const char *name)
{
    if (!read_line())
        broken("%s should be here, and the file ends", name);
    return value_of(name);
}

/* A number in decimal, below a million. */
static unsigned long number_of(const char *name)
{
    const char *value = value_of(name);
    size_t n = strspn(value, "0123456789");

    if (n == 0 || n > 6 || value[n] != '\0' || (n > 1 && value[0] == '0'))
        broken("%s is not a number", name);
    return strtoul(value, NULL, 10);
}

static unsigned long read_number(const char *name)
{
    read_field(name);
    return number_of(name);
}

static uint8_t digit(const char *name, char c)
{
    static const char digits[] = "0123456789ABCDEF";
    const char *at = c == '\0' ? NULL : strchr(digits, c);

    if (at == NULL)
        broken("%s is not in digits 0 to 9 and A to F", name);
    return (uint8_t)(at - digits);
}

/* Exactly n bytes in hexadecimal; no bytes stand as 00. */
static void read_bytes(const char *name, uint8_t *bytes, size_t n)
{
    const char *value = read_field(name);
    size_t i;

    if (n == 0 && strcmp(value, "00") == 0)
        return;
    if (n == 0 || strlen(value) != 2 * n)
        broken("%s is not %lu bytes", name, (unsigned long)n);
    for (i = 0; i < n; i++)
        bytes[i] = (uint8_t)(16 * digit(name, value[2 * i]) + digit(name, value[2 * i + 1]));
}

/* The comments in front, one of which announces how many cases there are. */
static unsigned long read_header(void)
{
    unsigned long cases = 0;

    while (read_line() && line[0] == '#')
        if (strncmp(line, "# cases", 7) == 0) {
            if (cases != 0)
                broken("the cases are announced twice");
            cases = number_of("# cases");
        }
    if (line[0] != '\0')
        broken("an empty line should be here");
    if (cases == 0)
        broken("no cases are announced");
    return cases;
}

static void read_case(unsigned long count)
{
    if (read_number("count") != count)
        broken("count should be %lu", count);
    memset(&lent, 0, sizeof lent);
    read_bytes("key", lent.key, sizeof lent.key);
    read_bytes("plaintext", lent.plaintext, sizeof lent.plaintext);
    read_bytes("pk", lent.public_key, sizeof lent.public_key);
    message_len = read_number("mlen");
    if (message_len > sizeof lent.message)
        broken("mlen is over %lu", (unsigned long)sizeof lent.message);
    read_bytes("msg", lent.message, message_len);
    read_bytes("salt", lent.salt, sizeof lent.salt);
    read_bytes("seeds", lent.seeds, sizeof lent.seeds);
    if (read_number("siglen") != sizeof lent.signature)
        broken("siglen should be %lu", (unsigned long)sizeof lent.signature);
    read_bytes("sig", lent.signature, sizeof lent.signature);
    read_empty_line();
    was = lent;
}

/* ---- the calls */

static void mark(void)
{
    memset(out, MARK, sizeof out);
    memset(work, MARK, sizeof work);
}

/* Whether these bytes are all the same. */
static int all(const uint8_t *bytes, size_t n, uint8_t byte)
{
    while (n > 0 && bytes[n - 1] == byte)
        n--;
    return n == 0;
}

/* Tells whether the answer is this one, `out` begins with n bytes `made` and `work` with so many zeros, and all else is as it was. */
static void expect(unsigned long count, const char *what, uint32_t expected, uint32_t answer, const uint8_t *made, size_t n, size_t zeros)
{
    const char *wrong = NULL;

    if (memcmp(&lent, &was, sizeof lent) != 0)
        wrong = "a slice changed that is only read";
    else if (!all(out + n, sizeof out - n, MARK))
        wrong = "out changed behind what was made";
    else if (!all(work, zeros, 0) || !all(work + zeros, sizeof work - zeros, MARK))
        wrong = "work is not zero, or changed behind that";
    else if (n > 0 && memcmp(out, made, n) != 0)
        wrong = "what was made differs";
    if (answer == expected && wrong == NULL) {
        passed++;
        return;
    }
    failed++;
    printf("FAILED: count = %lu, %s: answer %lu %lu", count, what, (unsigned long)BANQUET_NUMBER(answer), (unsigned long)BANQUET_PLACE(answer));
    if (answer != expected)
        printf(" for %lu %lu", (unsigned long)BANQUET_NUMBER(expected), (unsigned long)BANQUET_PLACE(expected));
    printf("%s%s\n", wrong == NULL ? "" : "; ", wrong == NULL ? "" : wrong);
}

static uint32_t verify(void)
{
    return banquet_verify(lent.public_key, sizeof lent.public_key, lent.message, message_len, lent.signature, sizeof lent.signature,
                          work, sizeof work);
}

static void try_case(unsigned long count)
{
    uint32_t answer;

    mark();
    answer = banquet_public_key(lent.key, sizeof lent.key, lent.plaintext, sizeof lent.plaintext, out, BANQUET_PUBLIC_KEY_BYTES + BEYOND);
    expect(count, "public key", BANQUET_ACCEPTED, answer, lent.public_key, sizeof lent.public_key, 0);

    mark();
    answer = banquet_sign(lent.key, sizeof lent.key, lent.public_key, sizeof lent.public_key, lent.message, message_len,
                          lent.salt, sizeof lent.salt, lent.seeds, sizeof lent.seeds, out, sizeof out, work, sizeof work);
    expect(count, "sign", BANQUET_ACCEPTED, answer, lent.signature, sizeof lent.signature, BANQUET_WORK_BYTES);

    mark();
    answer = verify();
    expect(count, "verify", BANQUET_ACCEPTED, answer, NULL, 0, BANQUET_WORK_BYTES);

    /* the last byte of the message, or of the public key where the message is empty */
    if (message_len > 0)
        lent.message[message_len - 1] ^= 1;
    else
        lent.public_key[sizeof lent.public_key - 1] ^= 1;
    was = lent;
    mark();
    answer = verify();
    expect(count, "verify what was altered", (uint32_t)BANQUET_REFUSED_FIRST_HASH << 16, answer, NULL, 0, BANQUET_WORK_BYTES);
}

int main(int argc, char **argv)
{
    unsigned long cases, count;

    if (argc != 2) {
        fputs("usage: known_answers FILE\n", stderr);
        return EXIT_FAILURE;
    }
    file = fopen(argv[1], "rb");
    if (file == NULL) {
        perror(argv[1]);
        return EXIT_FAILURE;
    }
    cases = read_header();
    for (count = 0; count < cases; count++) {
        read_case(count);
        try_case(count);
    }
    if (read_line())
        broken("the file should end here: it announces %lu cases", cases);
    fclose(file);
    printf("%lu passed, %lu failed\n", passed, failed);
    return failed == 0 ? EXIT_SUCCESS : EXIT_FAILURE;
}
