// Our Keccak-f[1600] and SHAKE128 (crates/bench) measured against plain portable C. bench/run compiles and runs this.
// The C is written as experts write it for 64-bit machines (after XKCP's plain-64): the lanes are local variables, a turn is two rounds, and
// six lanes are kept complemented, so that chi needs 5 NOTs a round and not 25.
#include <stdint.h>
#include <stdio.h>
#include <stdlib.h>
#include <string.h>
#include <time.h>

void bench_permute(uint64_t *s);
void bench_digest(const uint8_t *src, size_t src_len, uint8_t *out, size_t out_len);

// ---- the C

#define ROL(x, k) (((x) << (k)) | ((x) >> (64 - (k))))

#define ROUND(A, E, rc) \
    Ca = A##ba ^ A##ga ^ A##ka ^ A##ma ^ A##sa; \
    Ce = A##be ^ A##ge ^ A##ke ^ A##me ^ A##se; \
    Ci = A##bi ^ A##gi ^ A##ki ^ A##mi ^ A##si; \
    Co = A##bo ^ A##go ^ A##ko ^ A##mo ^ A##so; \
    Cu = A##bu ^ A##gu ^ A##ku ^ A##mu ^ A##su; \
    Da = Cu ^ ROL(Ce, 1); De = Ca ^ ROL(Ci, 1); Di = Ce ^ ROL(Co, 1); \
    Do = Ci ^ ROL(Cu, 1); Du = Co ^ ROL(Ca, 1); \
    Ba = A##ba ^ Da; Be = ROL(A##ge ^ De, 44); Bi = ROL(A##ki ^ Di, 43); \
    Bo = ROL(A##mo ^ Do, 21); Bu = ROL(A##su ^ Du, 14); \
    E##ba = Ba ^ (Be | Bi) ^ (rc); E##be = Be ^ (~Bi | Bo); E##bi = Bi ^ (Bo & Bu); \
    E##bo = Bo ^ (Bu | Ba); E##bu = Bu ^ (Ba & Be); \
    Ba = ROL(A##bo ^ Do, 28); Be = ROL(A##gu ^ Du, 20); Bi = ROL(A##ka ^ Da, 3); \
    Bo = ROL(A##me ^ De, 45); Bu = ROL(A##si ^ Di, 61); \
    E##ga = Ba ^ (Be | Bi); E##ge = Be ^ (Bi & Bo); E##gi = Bi ^ (Bo | ~Bu); \
    E##go = Bo ^ (Bu | Ba); E##gu = Bu ^ (Ba & Be); \
    Ba = ROL(A##be ^ De, 1); Be = ROL(A##gi ^ Di, 6); Bi = ROL(A##ko ^ Do, 25); \
    Bo = ROL(A##mu ^ Du, 8); Bu = ROL(A##sa ^ Da, 18); \
    E##ka = Ba ^ (Be | Bi); E##ke = Be ^ (Bi & Bo); E##ki = Bi ^ (~Bo & Bu); \
    E##ko = ~Bo ^ (Bu | Ba); E##ku = Bu ^ (Ba & Be); \
    Ba = ROL(A##bu ^ Du, 27); Be = ROL(A##ga ^ Da, 36); Bi = ROL(A##ke ^ De, 10); \
    Bo = ROL(A##mi ^ Di, 15); Bu = ROL(A##so ^ Do, 56); \
    E##ma = Ba ^ (Be & Bi); E##me = Be ^ (Bi | Bo); E##mi = Bi ^ (~Bo | Bu); \
    E##mo = ~Bo ^ (Bu & Ba); E##mu = Bu ^ (Ba | Be); \
    Ba = ROL(A##bi ^ Di, 62); Be = ROL(A##go ^ Do, 55); Bi = ROL(A##ku ^ Du, 39); \
    Bo = ROL(A##ma ^ Da, 41); Bu = ROL(A##se ^ De, 2); \
    E##sa = Ba ^ (~Be & Bi); E##se = ~Be ^ (Bi | Bo); E##si = Bi ^ (Bo & Bu); \
    E##so = Bo ^ (Bu | Ba); E##su = Bu ^ (Ba & Be);

static const uint64_t RC[24] = {
    0x0000000000000001, 0x0000000000008082, 0x800000000000808a, 0x8000000080008000,
    0x000000000000808b, 0x0000000080000001, 0x8000000080008081, 0x8000000000008009,
    0x000000000000008a, 0x0000000000000088, 0x0000000080008009, 0x000000008000000a,
    0x000000008000808b, 0x800000000000008b, 0x8000000000008089, 0x8000000000008003,
    0x8000000000008002, 0x8000000000000080, 0x000000000000800a, 0x800000008000000a,
    0x8000000080008081, 0x8000000000008080, 0x0000000080000001, 0x8000000080008008,
};

__attribute__((noipa)) void c_permute(uint64_t *s)
{
    uint64_t Ca, Ce, Ci, Co, Cu, Da, De, Di, Do, Du, Ba, Be, Bi, Bo, Bu;
    uint64_t Aba = s[0], Abe = ~s[1], Abi = ~s[2], Abo = s[3], Abu = s[4];
    uint64_t Aga = s[5], Age = s[6], Agi = s[7], Ago = ~s[8], Agu = s[9];
    uint64_t Aka = s[10], Ake = s[11], Aki = ~s[12], Ako = s[13], Aku = s[14];
    uint64_t Ama = s[15], Ame = s[16], Ami = ~s[17], Amo = s[18], Amu = s[19];
    uint64_t Asa = ~s[20], Ase = s[21], Asi = s[22], Aso = s[23], Asu = s[24];
    uint64_t Eba, Ebe, Ebi, Ebo, Ebu, Ega, Ege, Egi, Ego, Egu, Eka, Eke, Eki, Eko, Eku, Ema, Eme, Emi, Emo, Emu, Esa, Ese, Esi, Eso, Esu;
    for (int i = 0; i < 24; i += 2) {
        ROUND(A, E, RC[i])
        ROUND(E, A, RC[i + 1])
    }
    s[0] = Aba; s[1] = ~Abe; s[2] = ~Abi; s[3] = Abo; s[4] = Abu;
    s[5] = Aga; s[6] = Age; s[7] = Agi; s[8] = ~Ago; s[9] = Agu;
    s[10] = Aka; s[11] = Ake; s[12] = ~Aki; s[13] = Ako; s[14] = Aku;
    s[15] = Ama; s[16] = Ame; s[17] = ~Ami; s[18] = Amo; s[19] = Amu;
    s[20] = ~Asa; s[21] = Ase; s[22] = Asi; s[23] = Aso; s[24] = Asu;
}

// SHAKE128 on a little-endian machine: whole lanes by memcpy.
__attribute__((noipa)) void c_digest(const uint8_t *src, size_t src_len, uint8_t *out, size_t out_len)
{
    uint64_t s[25] = {0}, w;
    while (src_len >= 168) {
        for (int i = 0; i < 21; i++) { memcpy(&w, src + 8 * i, 8); s[i] ^= w; }
        c_permute(s);
        src += 168;
        src_len -= 168;
    }
    uint8_t last[168] = {0};
    memcpy(last, src, src_len);
    last[src_len] = 0x1f;
    last[167] |= 0x80;
    for (int i = 0; i < 21; i++) { memcpy(&w, last + 8 * i, 8); s[i] ^= w; }
    c_permute(s);
    while (out_len > 168) {
        memcpy(out, s, 168);
        c_permute(s);
        out += 168;
        out_len -= 168;
    }
    memcpy(out, s, out_len);
}

// ---- the measurement

enum { ROUNDS = 1001, CALLS = 100 };

static uint64_t ours[25], theirs[25];
static uint8_t src[4096], out[4096], out2[4096];

static double now(void)
{
    struct timespec t;
    clock_gettime(CLOCK_MONOTONIC, &t);
    return t.tv_sec * 1e9 + t.tv_nsec;
}

static int order(const void *a, const void *b)
{
    double x = *(const double *)a, y = *(const double *)b;
    return x < y ? -1 : x > y;
}

static double median(double *t)
{
    qsort(t, ROUNDS, sizeof *t, order);
    return t[ROUNDS / 2];
}

// n bytes digested to m, or a permutation where n is negative; by us or by the C
static void call(int us, int n, int m)
{
    if (n < 0) us ? bench_permute(ours) : c_permute(theirs);
    else if (us) bench_digest(src, n, out, m);
    else c_digest(src, n, out2, m);
}

static void measure(const char *name, int n, int m)
{
    static double a[ROUNDS], b[ROUNDS], ratio[ROUNDS];
    for (int r = 0; r < ROUNDS; r++) {
        double t0 = now();
        for (int i = 0; i < CALLS; i++) call(1, n, m);
        double t1 = now();
        for (int i = 0; i < CALLS; i++) call(0, n, m);
        double t2 = now();
        a[r] = (t1 - t0) / CALLS;
        b[r] = (t2 - t1) / CALLS;
        ratio[r] = a[r] / b[r];
    }
    printf("%-22s ours %8.1f ns   C %8.1f ns   ratio %.2f\n", name, median(a), median(b), median(ratio));
}

int main(int argc, char **argv)
{
    for (int i = 0; i < 4096; i++) src[i] = 7 * (i + i / 256);
    for (int i = 0; i < 25; i++) ours[i] = theirs[i] = 0x0123456789abcdef * (i + 1);
    if (argc == 4) { // for callgrind: one call of ours, one of the C's
        call(1, atoi(argv[1]), atoi(argv[2]));
        call(0, atoi(argv[1]), atoi(argv[2]));
        return 0;
    }
    for (int i = 0; i < 100; i++) { bench_permute(ours); c_permute(theirs); }
    int same = !memcmp(ours, theirs, sizeof ours);
    for (int n = 0; n < 400; n++) {
        bench_digest(src, n, out, 3 * n);
        c_digest(src, n, out2, 3 * n);
        same &= !memcmp(out, out2, 3 * n);
    }
    if (!same) { puts("ours and the C differ"); return 1; }
    printf("median of %d rounds of %d calls; ratio: median of the rounds' ratios\n", ROUNDS, CALLS);
    measure("permutation", -1, 0);
    measure("digest 51 -> 32", 51, 32);
    measure("digest 51 -> 380", 51, 380);
    measure("digest 4000 -> 32", 4000, 32);
    return 0;
}
