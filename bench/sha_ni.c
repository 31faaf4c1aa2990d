// How many hashes of 55 bytes a second one chain allows by the processor's own SHA-256 instructions: each hash takes 32 bytes
// of the one before, as the steps of a chain of LM-OTS do, so no two overlap. In seconds of the thread's processor time.
//
//     cc -O2 -msha -msse4.1 -o /tmp/sha_ni bench/sha_ni.c && /tmp/sha_ni
#include <immintrin.h>
#include <stdint.h>
#include <stdio.h>
#include <string.h>
#include <time.h>

static const uint32_t K[64] __attribute__((aligned(16))) = {
    0x428a2f98, 0x71374491, 0xb5c0fbcf, 0xe9b5dba5, 0x3956c25b, 0x59f111f1, 0x923f82a4, 0xab1c5ed5, 0xd807aa98, 0x12835b01,
    0x243185be, 0x550c7dc3, 0x72be5d74, 0x80deb1fe, 0x9bdc06a7, 0xc19bf174, 0xe49b69c1, 0xefbe4786, 0x0fc19dc6, 0x240ca1cc,
    0x2de92c6f, 0x4a7484aa, 0x5cb0a9dc, 0x76f988da, 0x983e5152, 0xa831c66d, 0xb00327c8, 0xbf597fc7, 0xc6e00bf3, 0xd5a79147,
    0x06ca6351, 0x14292967, 0x27b70a85, 0x2e1b2138, 0x4d2c6dfc, 0x53380d13, 0x650a7354, 0x766a0abb, 0x81c2c92e, 0x92722c85,
    0xa2bfe8a1, 0xa81a664b, 0xc24b8b70, 0xc76c51a3, 0xd192e819, 0xd6990624, 0xf40e3585, 0x106aa070, 0x19a4c116, 0x1e376c08,
    0x2748774c, 0x34b0bcb5, 0x391c0cb3, 0x4ed8aa4a, 0x5b9cca4f, 0x682e6ff3, 0x748f82ee, 0x78a5636f, 0x84c87814, 0x8cc70208,
    0x90befffa, 0xa4506ceb, 0xbef9a3f7, 0xc67178f2,
};

// The digest of a message of at most 55 bytes, which stands in its padded block.
static void digest(const uint8_t block[64], uint8_t out[32]) {
    const __m128i bytes = _mm_set_epi64x(0x0c0d0e0f08090a0b, 0x0405060700010203);
    const __m128i abef0 = _mm_set_epi32(0x6a09e667, 0xbb67ae85, 0x510e527f, 0x9b05688c);
    const __m128i cdgh0 = _mm_set_epi32(0x3c6ef372, 0xa54ff53a, 0x1f83d9ab, 0x5be0cd19);
    __m128i abef = abef0, cdgh = cdgh0, w[4];
#pragma GCC unroll 16
    for (int i = 0; i < 16; i++) {
        if (i < 4) {
            w[i] = _mm_shuffle_epi8(_mm_loadu_si128((const __m128i *)block + i), bytes);
        } else {
            __m128i sum = _mm_add_epi32(
                _mm_sha256msg1_epu32(w[i & 3], w[(i + 1) & 3]), _mm_alignr_epi8(w[(i + 3) & 3], w[(i + 2) & 3], 4));
            w[i & 3] = _mm_sha256msg2_epu32(sum, w[(i + 3) & 3]);
        }
        __m128i round = _mm_add_epi32(w[i & 3], _mm_load_si128((const __m128i *)K + i));
        cdgh = _mm_sha256rnds2_epu32(cdgh, abef, round);
        abef = _mm_sha256rnds2_epu32(abef, cdgh, _mm_shuffle_epi32(round, 0x0e));
    }
    abef = _mm_shuffle_epi32(_mm_add_epi32(abef, abef0), 0x1b);
    cdgh = _mm_shuffle_epi32(_mm_add_epi32(cdgh, cdgh0), 0x1b);
    _mm_storeu_si128((__m128i *)out, _mm_shuffle_epi8(_mm_unpacklo_epi64(abef, cdgh), bytes));
    _mm_storeu_si128((__m128i *)out + 1, _mm_shuffle_epi8(_mm_unpackhi_epi64(abef, cdgh), bytes));
}

static double seconds(void) {
    struct timespec now;
    clock_gettime(CLOCK_THREAD_CPUTIME_ID, &now);
    return now.tv_sec + now.tv_nsec * 1e-9;
}

int main(void) {
    static const uint8_t of_zeros[4] = {0x02, 0x77, 0x94, 0x66}; // SHA-256 of 55 zero bytes begins so
    uint8_t block[64] = {0}, out[32];
    block[55] = 0x80;
    block[62] = 55 * 8 >> 8;
    block[63] = 55 * 8 & 0xff;
    digest(block, out);
    if (memcmp(out, of_zeros, 4) != 0) {
        fprintf(stderr, "sha_ni: a wrong digest\n");
        return 1;
    }
    double best = 0;
    for (int run = 0; run < 5; run++) {
        double from = seconds();
        for (int i = 0; i < 2000000; i++) {
            digest(block, out);
            memcpy(block + 23, out, 32);
        }
        double rate = 2e6 / (seconds() - from);
        best = rate > best ? rate : best;
    }
    printf("%.1f million hashes of 55 bytes a second on one chain\n", best / 1e6);
    return 0;
}
