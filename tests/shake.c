/* NIST's vectors of SHAKE256 against the crate shake, as shake_calls has it for C.
 *
 *   shake FILE...   files of the CAVS: SHAKE256ShortMsg, LongMsg, VariableOut and Monte
 *
 * Each vector is put to both calls, to that in pieces with cuts around the ends of lanes and blocks. */
#include <stdint.h>
#include <stdio.h>
#include <stdlib.h>
#include <string.h>

void shake_whole(uint8_t *out, size_t out_length, const uint8_t *input, size_t length);
void shake_pieces(uint8_t *out, size_t out_length, const uint8_t *input, size_t length, size_t cut, size_t pause);

enum { MOST = 1 << 16, SEED = 16, TURNS = 1000 };
static const size_t cuts[] = { 0, 1, 7, 8, 9, 31, 127, 128, 135, 136, 137, 272, 1000 };

static uint8_t message[MOST], expected[MOST], found[MOST];
static unsigned long vectors, wrong;

/* hex TEXT BYTES: how many bytes the text writes. */
static size_t hex(const char *text, uint8_t *bytes) {
    size_t count = 0;
    unsigned value;
    while (count < MOST && sscanf(text + 2 * count, "%2x", &value) == 1) bytes[count++] = (uint8_t)value;
    return count;
}

static void compared(const char *how, const char *file, size_t line, size_t length) {
    if (memcmp(found, expected, length) != 0) {
        fprintf(stderr, "%s:%zu: %s differs\n", file, line, how);
        wrong++;
    }
    memset(found, 0xa5, length);
}

static void vector(const char *file, size_t line, size_t length, size_t out_length) {
    shake_whole(found, out_length, message, length);
    compared("shake_whole", file, line, out_length);
    for (size_t i = 0; i < sizeof cuts / sizeof *cuts; i++) {
        shake_pieces(found, out_length, message, length, cuts[i], cuts[sizeof cuts / sizeof *cuts - 1 - i]);
        compared("shake_pieces", file, line, out_length);
    }
    vectors++;
}

/* A turn of the Monte Carlo test: a thousand outputs, each from the first sixteen bytes of the one before. The last two
 * bytes of each give the length of the next. Answers with the length of the last. */
static size_t turn(size_t *next, size_t least, size_t most) {
    size_t length = 0;
    for (int i = 0; i < TURNS; i++) {
        length = *next;
        memcpy(message, found, SEED);
        memset(found, 0, SEED);
        shake_whole(found, length, message, SEED);
        *next = least + ((size_t)found[length - 2] << 8 | found[length - 1]) % (most - least + 1);
    }
    return length;
}

int main(int argc, char **argv) {
    static char text[2 * MOST];
    for (int f = 1; f < argc; f++) {
        FILE *file = fopen(argv[f], "r");
        if (!file) return perror(argv[f]), 2;
        size_t line = 0, length = 0, bits = 0, least = 0, most = 0, before = vectors;
        int monte = strstr(argv[f], "Monte") != NULL, counted = 0;
        size_t next = 0;
        while (fgets(text, sizeof text, file)) {
            line++;
            if (sscanf(text, "[Minimum Output Length (bits) = %zu]", &bits) == 1) least = bits / 8;
            else if (sscanf(text, "[Maximum Output Length (bits) = %zu]", &bits) == 1) most = next = bits / 8;
            else if (sscanf(text, "[Input Length = %zu]", &bits) == 1) length = bits / 8, counted = 1;
            else if (sscanf(text, "Len = %zu", &bits) == 1) length = bits / 8, counted = 1;
            else if (strncmp(text, "Msg = ", 6) == 0) {
                size_t bytes = hex(text + 6, message);
                if (!counted) length = bytes;
                if (monte) memcpy(found, message, SEED);
                if (length && bytes != length) return fprintf(stderr, "%s:%zu: not read\n", argv[f], line), 2;
            } else if (strncmp(text, "Output = ", 9) == 0) {
                size_t out_length = hex(text + 9, expected);
                if (!monte) vector(argv[f], line, length, out_length);
                else {
                    if (turn(&next, least, most) != out_length || memcmp(found, expected, out_length) != 0) {
                        fprintf(stderr, "%s:%zu: the Monte Carlo test differs\n", argv[f], line);
                        wrong++;
                    }
                    vectors++;
                }
            }
        }
        fclose(file);
        if (vectors == before) return fprintf(stderr, "%s: no vector\n", argv[f]), 2;
    }
    if (wrong) return fprintf(stderr, "%lu differ\n", wrong), 1;
    printf("%lu of NIST's vectors of SHAKE256 agree\n", vectors);
    return 0;
}
