/* The benchmarks' work in plain C, and over OpenSSL: the same turns on the same data as crates/bench, so that the last
   line of each program must be the same. Usage: baseline plain|openssl long|short|encrypt|key TURNS */
#define OPENSSL_SUPPRESS_DEPRECATED
#include <openssl/aes.h>
#include <openssl/sha.h>
#include <stdint.h>
#include <stdio.h>
#include <stdlib.h>
#include <string.h>

/* ---- SHA-256, FIPS 180-4: eight rounds a turn of the loop, no rotation of the working variables */

static const uint32_t K[64] = {
    0x428a2f98, 0x71374491, 0xb5c0fbcf, 0xe9b5dba5, 0x3956c25b, 0x59f111f1, 0x923f82a4, 0xab1c5ed5,
    0xd807aa98, 0x12835b01, 0x243185be, 0x550c7dc3, 0x72be5d74, 0x80deb1fe, 0x9bdc06a7, 0xc19bf174,
    0xe49b69c1, 0xefbe4786, 0x0fc19dc6, 0x240ca1cc, 0x2de92c6f, 0x4a7484aa, 0x5cb0a9dc, 0x76f988da,
    0x983e5152, 0xa831c66d, 0xb00327c8, 0xbf597fc7, 0xc6e00bf3, 0xd5a79147, 0x06ca6351, 0x14292967,
    0x27b70a85, 0x2e1b2138, 0x4d2c6dfc, 0x53380d13, 0x650a7354, 0x766a0abb, 0x81c2c92e, 0x92722c85,
    0xa2bfe8a1, 0xa81a664b, 0xc24b8b70, 0xc76c51a3, 0xd192e819, 0xd6990624, 0xf40e3585, 0x106aa070,
    0x19a4c116, 0x1e376c08, 0x2748774c, 0x34b0bcb5, 0x391c0cb3, 0x4ed8aa4a, 0x5b9cca4f, 0x682e6ff3,
    0x748f82ee, 0x78a5636f, 0x84c87814, 0x8cc70208, 0x90befffa, 0xa4506ceb, 0xbef9a3f7, 0xc67178f2};

#define ROTR(n, x) (((x) >> (n)) | ((x) << (32 - (n))))
#define S0(x) (ROTR(2, x) ^ ROTR(13, x) ^ ROTR(22, x))
#define S1(x) (ROTR(6, x) ^ ROTR(11, x) ^ ROTR(25, x))
#define s0(x) (ROTR(7, x) ^ ROTR(18, x) ^ ((x) >> 3))
#define s1(x) (ROTR(17, x) ^ ROTR(19, x) ^ ((x) >> 10))
#define CH(x, y, z) (((x) & (y)) ^ (~(x) & (z)))
#define MAJ(x, y, z) (((x) & (y)) ^ ((x) & (z)) ^ ((y) & (z)))
#define ROUND(a, b, c, d, e, f, g, h, t)                              \
    do {                                                              \
        uint32_t t1 = h + S1(e) + CH(e, f, g) + K[t] + w[t];          \
        uint32_t t2 = S0(a) + MAJ(a, b, c);                           \
        d += t1;                                                      \
        h = t1 + t2;                                                  \
    } while (0)

static void compress(uint32_t s[8], const uint8_t *m)
{
    uint32_t w[64];
    for (int i = 0; i < 16; i++)
        w[i] = (uint32_t)m[4 * i] << 24 | (uint32_t)m[4 * i + 1] << 16 | (uint32_t)m[4 * i + 2] << 8 | m[4 * i + 3];
    for (int i = 16; i < 64; i++)
        w[i] = s1(w[i - 2]) + w[i - 7] + s0(w[i - 15]) + w[i - 16];
    uint32_t a = s[0], b = s[1], c = s[2], d = s[3], e = s[4], f = s[5], g = s[6], h = s[7];
    for (int t = 0; t < 64; t += 8) {
        ROUND(a, b, c, d, e, f, g, h, t);
        ROUND(h, a, b, c, d, e, f, g, t + 1);
        ROUND(g, h, a, b, c, d, e, f, t + 2);
        ROUND(f, g, h, a, b, c, d, e, t + 3);
        ROUND(e, f, g, h, a, b, c, d, t + 4);
        ROUND(d, e, f, g, h, a, b, c, t + 5);
        ROUND(c, d, e, f, g, h, a, b, t + 6);
        ROUND(b, c, d, e, f, g, h, a, t + 7);
    }
    s[0] += a, s[1] += b, s[2] += c, s[3] += d, s[4] += e, s[5] += f, s[6] += g, s[7] += h;
}

static void plain_sha256(const uint8_t *m, size_t n, uint8_t out[32])
{
    uint32_t s[8] = {0x6a09e667, 0xbb67ae85, 0x3c6ef372, 0xa54ff53a, 0x510e527f, 0x9b05688c, 0x1f83d9ab, 0x5be0cd19};
    size_t k = n / 64 * 64;
    for (size_t i = 0; i < k; i += 64)
        compress(s, m + i);
    uint8_t last[128] = {0};
    size_t rest = n - k, end = rest < 56 ? 64 : 128;
    memcpy(last, m + k, rest);
    last[rest] = 0x80;
    uint64_t bits = (uint64_t)n << 3;
    for (int i = 0; i < 8; i++)
        last[end - 1 - i] = (uint8_t)(bits >> (8 * i));
    compress(s, last);
    if (end == 128)
        compress(s, last + 64);
    for (int i = 0; i < 8; i++)
        for (int j = 0; j < 4; j++)
            out[4 * i + j] = (uint8_t)(s[i] >> (24 - 8 * j));
}

/* ---- AES-256, FIPS 197, byte by byte. The tables are computed before the turns. A round doubles by shift and reduction, or by a table if compiled with -DTABLE */

static uint8_t sbox[256], doubles[256];

static uint8_t xtime(uint8_t x) { return (uint8_t)(x << 1 ^ (x >> 7) * 0x1b); }

static uint8_t times(uint8_t a, uint8_t b)
{
    uint8_t r = 0;
    for (; b; b >>= 1, a = xtime(a))
        if (b & 1)
            r ^= a;
    return r;
}

#ifdef TABLE
static uint8_t twice(uint8_t x) { return doubles[x]; }
#else
static uint8_t twice(uint8_t x) { return xtime(x); }
#endif

static void make_tables(void)
{
    for (int x = 0; x < 256; x++) {
        doubles[x] = xtime((uint8_t)x);
        uint8_t inverse = 0;
        for (int y = 1; y < 256 && x; y++)
            if (times((uint8_t)x, (uint8_t)y) == 1)
                inverse = (uint8_t)y;
        uint8_t r = 0x63;
        for (int k = 0; k < 5; k++)
            r ^= (uint8_t)(inverse << k | inverse >> (8 - k));
        sbox[x] = r;
    }
}

static void plain_expand(const uint8_t key[32], uint8_t w[240])
{
    memcpy(w, key, 32);
    uint8_t rcon = 1;
    for (int i = 8; i < 60; i++) {
        uint8_t t[4];
        memcpy(t, w + 4 * (i - 1), 4);
        if (i % 8 == 0) {
            uint8_t first = t[0];
            t[0] = sbox[t[1]] ^ rcon, t[1] = sbox[t[2]], t[2] = sbox[t[3]], t[3] = sbox[first];
            rcon = xtime(rcon);
        } else if (i % 8 == 4) {
            for (int j = 0; j < 4; j++)
                t[j] = sbox[t[j]];
        }
        for (int j = 0; j < 4; j++)
            w[4 * i + j] = w[4 * (i - 8) + j] ^ t[j];
    }
}

static void sub_shift(uint8_t s[16])
{
    uint8_t t[16];
    for (int c = 0; c < 4; c++)
        for (int r = 0; r < 4; r++)
            t[4 * c + r] = sbox[s[4 * ((c + r) % 4) + r]];
    memcpy(s, t, 16);
}

static void plain_encrypt(const uint8_t w[240], uint8_t s[16])
{
    for (int i = 0; i < 16; i++)
        s[i] ^= w[i];
    for (int n = 1; n < 14; n++) {
        sub_shift(s);
        for (int c = 0; c < 4; c++) {
            uint8_t *p = s + 4 * c, a = p[0], b = p[1], d = p[2], e = p[3], all = a ^ b ^ d ^ e;
            p[0] ^= all ^ twice(a ^ b);
            p[1] ^= all ^ twice(b ^ d);
            p[2] ^= all ^ twice(d ^ e);
            p[3] ^= all ^ twice(e ^ a);
        }
        for (int i = 0; i < 16; i++)
            s[i] ^= w[16 * n + i];
    }
    sub_shift(s);
    for (int i = 0; i < 16; i++)
        s[i] ^= w[224 + i];
}

/* ---- the work */

static void hash(int plain, uint8_t *m, size_t n, unsigned long turns)
{
    uint8_t digest[32];
    while (turns--) {
        if (plain)
            plain_sha256(m, n, digest);
        else
            SHA256(m, n, digest);
        memcpy(m, digest, 32);
    }
}

static void encrypt(int plain, int expand_each, uint8_t block[16], unsigned long turns)
{
    uint8_t key[32], w[240];
    AES_KEY schedule;
    memset(key, 9, 32);
    if (plain)
        plain_expand(key, w);
    else
        AES_set_encrypt_key(key, 256, &schedule);
    while (turns--) {
        if (plain) {
            if (expand_each)
                plain_expand(key, w);
            plain_encrypt(w, block);
        } else {
            if (expand_each)
                AES_set_encrypt_key(key, 256, &schedule);
            AES_encrypt(block, block, &schedule);
        }
    }
}

int main(int argc, char **argv)
{
    static uint8_t m[65536];
    if (argc != 4)
        return 2;
    int plain = argv[1][0] == 'p';
    unsigned long turns = strtoul(argv[3], NULL, 10);
    make_tables();
    if (argv[2][0] == 'l' || argv[2][0] == 's') {
        memset(m, 7, sizeof m);
        hash(plain, m, argv[2][0] == 'l' ? 65536 : 300, turns);
    } else {
        encrypt(plain, argv[2][0] == 'k', m, turns);
    }
    for (int i = 0; i < 8; i++)
        printf("%02x", m[i]);
    puts("");
    return 0;
}
