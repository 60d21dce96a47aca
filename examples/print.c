/* Prints the atoms of a dictionary file, one to a line: print FILE. A line begins with the atom's places in the file,
 * as first..body..after. Read exactly: a refusal is printed with its number and where the refused atom starts, and the
 * status is 1; it is 2 if there is no file to read. rust/examples/print.rs is the same program, but for the digits of a
 * float and for strings that are not UTF-8. */
#include "dimewagon.h"
#include <inttypes.h>
#include <stdio.h>
#include <stdlib.h>
#include <string.h>

static const char *const kinds[] = {"Special", "Int", "UInt", "Float", "Sequence", "Map", "Symbol", "Bytes"};

/* A 128-bit integer in hexadecimal, another in decimal. */
static void print_integer(uint64_t variant, uint64_t low, uint64_t high)
{
    if (variant == POT_I128 || variant == POT_U128)
        printf(" 0x%016" PRIx64 "%016" PRIx64, high, low);
    else if (variant < POT_I128)
        printf(" %" PRId64, (int64_t)low);
    else
        printf(" %" PRIu64, low);
}

static void print_float(uint64_t width, uint64_t bits)
{
    if (width == 4) {
        uint32_t narrow = (uint32_t)bits;
        float value;
        memcpy(&value, &narrow, sizeof value);
        printf(" %.9g", value);
    } else {
        double value;
        memcpy(&value, &bits, sizeof value);
        printf(" %.17g", value);
    }
}

static void print_atom(const uint8_t *source, const uint64_t *words)
{
    printf("%" PRIu64 "..%" PRIu64 "..%" PRIu64, words[POT_FIRST], words[POT_BODY], words[POT_AFTER]);
    printf(" %s %" PRIu64, kinds[words[2]], words[3]);
    switch (words[4]) {
    case POT_BOOLEAN: printf(words[5] ? " true" : " false"); break;
    case POT_INTEGER: print_integer(words[5], words[6], words[7]); break;
    case POT_FLOATING: print_float(words[5], words[6]); break;
    case POT_STRING:
        putchar(' ');
        fwrite(source + words[5], 1, words[6], stdout);
        break;
    }
    putchar('\n');
}

/* The whole of a file, which the caller frees, or NULL. */
static uint8_t *read_whole(FILE *file, size_t *length)
{
    size_t room = 1 << 16;
    uint8_t *bytes = malloc(room);
    *length = 0;
    while (bytes) {
        uint8_t *more;
        *length += fread(bytes + *length, 1, room - *length, file);
        if (*length < room && !ferror(file))
            return bytes;
        more = ferror(file) ? NULL : realloc(bytes, room *= 2);
        if (!more)
            free(bytes);
        bytes = more;
    }
    return NULL;
}

/* Prints a file; answers the refusal's number, or 0. */
static uint64_t print_file(const uint8_t *source, size_t length)
{
    uint64_t words[POT_WORDS];
    size_t start = 0;
    uint64_t refusal = pot_read_header(source, length, 0, words, POT_WORDS);
    if (!refusal)
        printf("version %" PRIu64 "\n", words[1]);
    while (!refusal && words[0] < length) {
        start = words[0];
        refusal = pot_read_atom(source, length, start, UINT64_MAX, words, POT_WORDS);
        if (!refusal)
            print_atom(source, words);
    }
    if (refusal)
        fprintf(stderr, "print: refusal %" PRIu64 " at %zu\n", refusal, start);
    return refusal;
}

int main(int count, char **arguments)
{
    size_t length;
    FILE *file;
    uint8_t *source;
    uint64_t refusal;
    if (count != 2) {
        fprintf(stderr, "usage: print FILE\n");
        return 2;
    }
    file = fopen(arguments[1], "rb");
    source = file ? read_whole(file, &length) : NULL;
    if (!source) {
        perror(arguments[1]);
        return 2;
    }
    fclose(file);
    refusal = print_file(source, length);
    free(source);
    return refusal ? 1 : 0;
}
