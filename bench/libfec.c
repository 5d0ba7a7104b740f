/* Times the decoders of libfec alone (Debian: libfec-dev), for bench/peers, and prints processor seconds.

   libfec viterbi SOFT BITS   decodes pairs of soft bits, 0 to 255 and 128 for a punctured one, to bytes in BITS
   libfec words ERRORS COUNT  decodes so many words of RS(204,188), each with so many errors; their making is not timed */
#include <fec.h>
#include <stdio.h>
#include <stdlib.h>
#include <string.h>
#include <time.h>

static double seconds(void) {
    struct timespec now;
    clock_gettime(CLOCK_PROCESS_CPUTIME_ID, &now);
    return now.tv_sec + now.tv_nsec * 1e-9;
}

static void fail(const char *what) {
    fprintf(stderr, "libfec: %s\n", what);
    exit(1);
}

static double viterbi(const char *from, const char *to) {
    FILE *in = fopen(from, "rb"), *out = fopen(to, "wb");
    if (!in || !out || fseek(in, 0, SEEK_END)) fail("a file cannot be opened");
    long pairs = ftell(in) / 2;
    unsigned char *soft = malloc(2 * pairs), *bits = malloc(pairs / 8 + 1);
    rewind(in);
    if (!soft || !bits || fread(soft, 2, pairs, in) != (size_t)pairs) fail("the soft bits cannot be read");
    int polynomials[2] = {V27POLYB, V27POLYA}; /* 171 and 133 in octal, their bits turned round */
    double begun = seconds();
    void *decoder = create_viterbi27(pairs);
    if (!decoder) fail("no memory");
    set_viterbi27_polynomial(polynomials);
    init_viterbi27(decoder, 0);
    update_viterbi27_blk(decoder, soft, pairs - 6);
    chainback_viterbi27(decoder, bits, pairs - 6, 0);
    double taken = seconds() - begun;
    fwrite(bits, 1, pairs / 8, out);
    fclose(out);
    return taken;
}

static double words(int errors, int count) {
    void *code = init_rs_char(8, 0x11d, 0, 1, 16, 51);
    unsigned char(*sent)[204] = malloc(count * 204), (*came)[204] = malloc(count * 204);
    if (!code || !sent || !came) fail("no memory");
    srand(1);
    for (int n = 0; n < count; n++) {
        for (int i = 0; i < 188; i++) sent[n][i] = rand();
        encode_rs_char(code, sent[n], sent[n] + 188);
        memcpy(came[n], sent[n], 204);
        for (int k = 0; k < errors; k++) came[n][25 * k + rand() % 25] ^= 1 + rand() % 255;
    }
    double begun = seconds();
    for (int n = 0; n < count; n++) decode_rs_char(code, came[n], NULL, 0);
    double taken = seconds() - begun;
    if (memcmp(sent, came, count * 204)) fail("a word was not corrected");
    return taken;
}

int main(int count, char **given) {
    if (count != 4) fail("usage: libfec viterbi SOFT BITS | libfec words ERRORS COUNT");
    printf("%f\n", strcmp(given[1], "viterbi") ? words(atoi(given[2]), atoi(given[3])) : viterbi(given[2], given[3]));
    return 0;
}
