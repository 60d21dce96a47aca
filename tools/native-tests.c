/* The layout of the words, by the names of include/dimewagon.h, at examples of document 01. Compiled as C and as C++. */
#include "dimewagon.h"
#include <stdio.h>
#include <string.h>

static int failed;
static uint64_t words[POT_WORDS];
static uint8_t zeros[16777217];

/* None in one byte, 300 after a header of two, and a string: the atoms start at 0, 1 and 5. */
static const uint8_t source[8] = {0x00, 0x51, 0x00, 0x2C, 0x01, 0xE2, 'a', 'b'};

static void check(int line, int holds)
{
    if (!holds) {
        fprintf(stderr, "tools/native-tests.c:%d: another answer\n", line);
        failed = 1;
    }
}

#define CHECK(holds) check(__LINE__, holds)

/* Sets each word to one that no call writes, so that a word which a call leaves is seen. */
static void soil(void)
{
    memset(words, 0xA5, sizeof words);
}

/* Compares what was answered, the first words and an atom's places with what is wanted; the other words are 0. */
static void expect(int line, uint64_t number, uint64_t wanted, const uint64_t *said, size_t count,
                   const uint64_t *places)
{
    uint64_t all[POT_WORDS] = {0};
    memcpy(all, said, count * sizeof *said);
    all[POT_FIRST] = places[0];
    all[POT_BODY] = places[1];
    all[POT_AFTER] = places[2];
    check(line, number == wanted && memcmp(words, all, sizeof all) == 0);
    soil();
}

/* An answer with an atom's places, and one without. */
#define EXPECT_AT(first, body, after, number, wanted, ...)                                       \
    do {                                                                                         \
        const uint64_t said[] = {__VA_ARGS__}, places[] = {first, body, after};                  \
        expect(__LINE__, number, wanted, said, sizeof said / sizeof *said, places);              \
    } while (0)
#define EXPECT(number, wanted, ...) EXPECT_AT(0, 0, 0, number, wanted, __VA_ARGS__)

/* One atom, by the function that names no way, with a budget of 16. */
#define ATOM(string) pot_read_atom((const uint8_t *)string, sizeof string - 1, 0, 16, words, POT_WORDS)

static void atoms(void)
{
    EXPECT_AT(0, 1, 1, ATOM("\x00"), 0, 1, 16, POT_SPECIAL, POT_SPECIAL_NONE, POT_NONE);
    EXPECT_AT(0, 1, 1, ATOM("\x01"), 0, 1, 16, POT_SPECIAL, POT_SPECIAL_UNIT, POT_UNIT);
    EXPECT_AT(0, 1, 1, ATOM("\x02"), 0, 1, 16, POT_SPECIAL, POT_SPECIAL_FALSE, POT_BOOLEAN, 0);
    EXPECT_AT(0, 1, 1, ATOM("\x03"), 0, 1, 16, POT_SPECIAL, POT_SPECIAL_TRUE, POT_BOOLEAN, 1);
    EXPECT_AT(0, 1, 1, ATOM("\x04"), 0, 1, 16, POT_SPECIAL, POT_SPECIAL_NAMED, POT_NAMED);
    EXPECT_AT(0, 1, 1, ATOM("\x05"), 0, 1, 16, POT_SPECIAL, POT_SPECIAL_DYNAMIC_MAP, POT_DYNAMIC_MAP);
    EXPECT_AT(0, 1, 1, ATOM("\x06"), 0, 1, 16, POT_SPECIAL, POT_SPECIAL_DYNAMIC_END, POT_DYNAMIC_END);
    EXPECT_AT(0, 1, 3, ATOM("\x21\x7F\xFF"), 0, 3, 14, POT_INT, 1, POT_INTEGER, POT_I16, (uint64_t)-129, UINT64_MAX);
    EXPECT_AT(0, 1, 3, ATOM("\x41\x2C\x01"), 0, 3, 14, POT_UINT, 1, POT_INTEGER, POT_U16, 300, 0);
    EXPECT_AT(0, 1, 3, ATOM("\x61\x00\x3E"), 0, 3, 14, POT_FLOAT, 1, POT_FLOATING, 4, 0x3FC00000, 0x3E00);
    EXPECT_AT(0, 1, 1, ATOM("\x83"), 0, 1, 16, POT_SEQUENCE, 3, POT_NONE);
    EXPECT_AT(0, 1, 1, ATOM("\xA3"), 0, 1, 16, POT_MAP, 3, POT_NONE);
    EXPECT_AT(0, 1, 1, ATOM("\xC3"), 0, 1, 16, POT_SYMBOL, 3, POT_NONE);
    EXPECT_AT(0, 1, 3, ATOM("\xE2" "ab"), 0, 3, 14, POT_BYTES, 2, POT_STRING, 1, 2, 1);
}

/* The functions that read one atom, over the first bytes of the source, from a place, with a budget of 9. */
#define UNNAMED(length, place) pot_read_atom(source, length, place, 9, words, POT_WORDS)
#define FILLED(length, place) pot_read_atom_filled(source, length, place, 9, words, POT_WORDS)
#define EXACT(length, place) pot_read_atom_exact(source, length, place, 9, words, POT_WORDS)
#define COPIED(length, place) pot_read_atom_copied(source, length, place, 9, scratch, sizeof scratch, words, POT_WORDS)
#define SKIP(length, place) pot_skip_atom(source, length, place, 9, words, POT_WORDS)

static void places_of_an_atom(void)
{
    uint8_t scratch[2] = {9, 9};
    EXPECT_AT(1, 3, 5, UNNAMED(8, 1), 0, 5, 7, POT_UINT, 1, POT_INTEGER, POT_U16, 300, 0);
    EXPECT_AT(1, 3, 5, FILLED(8, 1), 0, 5, 7, POT_UINT, 1, POT_INTEGER, POT_U16, 300, 0);
    EXPECT_AT(1, 3, 5, EXACT(8, 1), 0, 5, 7, POT_UINT, 1, POT_INTEGER, POT_U16, 300, 0);
    EXPECT_AT(1, 3, 5, COPIED(8, 1), 0, 5, 7, POT_UINT, 1, POT_INTEGER, POT_U16, 300, 0);
    EXPECT_AT(1, 3, 5, SKIP(8, 1), 0, 5, 7, 3, 0);
    EXPECT_AT(5, 6, 8, UNNAMED(8, 5), 0, 8, 7, POT_BYTES, 2, POT_STRING, 6, 2, 1);
    EXPECT_AT(5, 6, 8, FILLED(8, 5), 0, 8, 7, POT_BYTES, 2, POT_STRING, 6, 2, 1);
    EXPECT_AT(5, 6, 8, EXACT(8, 5), 0, 8, 7, POT_BYTES, 2, POT_STRING, 6, 2, 1);
    CHECK(memcmp(scratch, "\t\t", 2) == 0);
    EXPECT_AT(5, 6, 8, COPIED(8, 5), 0, 8, 7, POT_BYTES, 2, POT_STRING, 0, 2, 0);
    CHECK(memcmp(scratch, "ab", 2) == 0);
    EXPECT_AT(5, 6, 8, SKIP(8, 5), 0, 8, 7, 6, 1);

    /* With zeros: at the end and past it; a number that is cut, and a header. */
    EXPECT_AT(8, 8, 8, FILLED(8, 8), 0, 8, 9, POT_SPECIAL, POT_SPECIAL_NONE, POT_NONE);
    EXPECT_AT(8, 8, 8, FILLED(8, SIZE_MAX), 0, 8, 9, POT_SPECIAL, POT_SPECIAL_NONE, POT_NONE);
    EXPECT_AT(1, 3, 4, FILLED(4, 1), 0, 4, 7, POT_UINT, 1, POT_INTEGER, POT_U16, 44, 0);
    EXPECT_AT(1, 2, 2, FILLED(2, 1), 0, 2, 7, POT_UINT, 1, POT_INTEGER, POT_U16, 0, 0);

    /* A refused atom has none, and neither has a signature. */
    EXPECT(UNNAMED(8, 8), POT_EOF, 8, 9);
    EXPECT(UNNAMED(8, SIZE_MAX), POT_EOF, 8, 9);
    EXPECT(EXACT(8, SIZE_MAX), POT_EOF, 8, 9);
    EXPECT(COPIED(8, 8), POT_EOF, 8, 9);
    EXPECT(SKIP(8, 8), POT_EOF, 8, 9);
    EXPECT(FILLED(7, 5), POT_EOF, 7, 7);
    EXPECT(UNNAMED(7, 5), POT_EOF, 7, 7);
    EXPECT(UNNAMED(4, 1), POT_EOF, 4, 7);
    EXPECT(UNNAMED(2, 1), POT_EOF, 2, 9);
    EXPECT(EXACT(4, 1), POT_EOF, 4, 7);
    EXPECT(COPIED(7, 5), POT_EOF, 7, 7);
    EXPECT(SKIP(7, 5), POT_EOF, 7, 7);
    EXPECT(pot_read_atom_copied(source, 8, 5, 9, scratch, 1, words, POT_WORDS), POT_NO_ROOM, 6, 7);
    EXPECT(pot_read_header((const uint8_t *)"Pot\x01", 4, 0, words, POT_WORDS), 0, 4, 1);
    EXPECT(pot_read_header((const uint8_t *)"Pot", 3, 0, words, POT_WORDS), POT_EOF, 3);
    EXPECT(pot_read_header_filled((const uint8_t *)"Pot\x01", 4, 0, words, POT_WORDS), 0, 4, 1);
    EXPECT(pot_read_header_filled((const uint8_t *)"Pot", 3, 0, words, POT_WORDS), 0, 3, 0);
    EXPECT(pot_read_header_exact((const uint8_t *)"Pot\x01", 4, 0, words, POT_WORDS), 0, 4, 1);
    EXPECT(pot_read_header_exact((const uint8_t *)"Pot", 3, 0, words, POT_WORDS), POT_EOF, 3);
}

#define RUN(length, budget) pot_run(source, length, budget, words, POT_WORDS)
#define TALLY(length) pot_tally(source, length, words, POT_WORDS)

static void places_of_the_last_atom(void)
{
    EXPECT_AT(5, 6, 8, RUN(8, 9), 0, 8, 5, 3);
    EXPECT_AT(1, 3, 5, RUN(7, 9), POT_EOF, 7, 5, 2, 5);
    EXPECT_AT(1, 3, 5, RUN(8, 3), POT_TOO_MANY_BYTES_READ, 6, 1, 2, 5);
    EXPECT_AT(0, 1, 1, RUN(8, 1), POT_TOO_MANY_BYTES_READ, 3, 1, 1, 1);
    EXPECT_AT(5, 6, 8, TALLY(8), 0, 3, 4, 4, 2);
    EXPECT_AT(1, 3, 5, TALLY(7), POT_EOF, 5);
    EXPECT_AT(0, 1, 1, TALLY(4), POT_EOF, 1);
    EXPECT_AT(16777215, 16777216, 16777216, pot_tally(zeros, sizeof zeros - 1, words, POT_WORDS), 0, 16777216);

    /* Where none was read. */
    EXPECT(RUN(0, 9), 0, 0, 9, 0);
    EXPECT(TALLY(0), 0, 0);
    EXPECT(pot_run(source + 5, 2, 9, words, POT_WORDS), POT_EOF, 2, 7, 0, 0);
    EXPECT(pot_tally(source + 5, 2, words, POT_WORDS), POT_EOF, 0);
    EXPECT(pot_tally(zeros, sizeof zeros, words, POT_WORDS), POT_TOO_LONG, 0);
}

#define LETTERS(text) pot_tally((const uint8_t *)text, sizeof text - 1, words, POT_WORDS)

/* A letter with its mark after it, a mark alone, CD before B0, and CC at the end of its string, before a sequence. */
static void letters(void)
{
    EXPECT_AT(0, 1, 4, LETTERS("\xE3" "e\xCC\x81"), 0, 1, 3, 3, 1);
    EXPECT_AT(0, 1, 3, LETTERS("\xE2\xCD\xAF"), 0, 1, 2, 2, 0);
    EXPECT_AT(0, 1, 3, LETTERS("\xE2\xCD\xB0"), 0, 1, 2, 2, 1);
    EXPECT_AT(2, 3, 3, LETTERS("\xE1\xCC\x80"), 0, 2, 1, 1, 1);
}

#define CHECKED(text) pot_check((const uint8_t *)text, sizeof text - 1, words, POT_WORDS)

/* What is in shortest form, what is longer by its header, its count or its width, and the refusals that come before 11. */
static void shortest(void)
{
    EXPECT(CHECKED(""), 0, 0);
    EXPECT(CHECKED("\x41\x2C\x01\x42\x70\x11\x01\x61\x00\x3E\xE2" "ab"), 0, 0);
    EXPECT(pot_check(zeros, sizeof zeros, words, POT_WORDS), 0, 0);
    EXPECT(pot_check(source, 8, words, POT_WORDS), POT_NOT_SHORTEST, 1);
    EXPECT(CHECKED("\x40\x05\x41\x05\x00"), POT_NOT_SHORTEST, 2);

    /* 200 as an Int and as a UInt; -0, and a NaN, of two bytes and of four. */
    EXPECT(CHECKED("\x21\xC8\x00\x40\xC8"), 0, 0);
    EXPECT(CHECKED("\x41\xC8\x00"), POT_NOT_SHORTEST, 0);
    EXPECT(CHECKED("\x61\x00\x80"), 0, 0);
    EXPECT(CHECKED("\x63\x00\x00\x00\x80"), POT_NOT_SHORTEST, 0);
    EXPECT(CHECKED("\x61\x00\x7E\x63\x00\x00\xC0\x7F"), 0, 0);
    EXPECT(CHECKED("\x71\x00\x00\x7E"), POT_NOT_SHORTEST, 0);

    /* Each with a header that is too long. */
    EXPECT(CHECKED("\x00\x17\x00"), POT_UNKNOWN_SPECIAL, 1, 7);
    EXPECT(CHECKED("\x00\x50\x00"), POT_EOF, 1);
    EXPECT(CHECKED("\x00\x54\x00"), POT_UNSUPPORTED_BYTE_COUNT, 1, POT_UINT, 5);
}

static void refusals(void)
{
    uint8_t out[4] = {9, 9, 9, 9};
    EXPECT(pot_read_header((const uint8_t *)"Pox\x01", 4, 0, words, POT_WORDS), POT_INCOMPATIBLE_VERSION, 4);
    EXPECT(pot_read_header_filled((const uint8_t *)"Po", 2, 0, words, POT_WORDS), POT_INCOMPATIBLE_VERSION, 2);
    EXPECT(pot_read_header_exact((const uint8_t *)"Pox\x01", 4, 0, words, POT_WORDS), POT_INCOMPATIBLE_VERSION, 4);
    EXPECT(pot_write_atom_header(out, 4, 8, 0, words, POT_WORDS), POT_INVALID_KIND, 8);
    EXPECT(ATOM("\x07"), POT_UNKNOWN_SPECIAL, 1, 16, 7);
    EXPECT(ATOM("\x41\x2C"), POT_EOF, 2, 14);
    EXPECT(ATOM("\xFF\x7F"), POT_TOO_MANY_BYTES_READ, 2, 16);
    EXPECT(ATOM("\x24"), POT_UNSUPPORTED_BYTE_COUNT, 1, 11, POT_INT, 5);
    EXPECT(pot_integer_cast(POT_U8, POT_I16, 5, 0, words, POT_WORDS), POT_IMPRECISE_CAST_WOULD_LOSE_DATA, 0);
    EXPECT(pot_write_u16(out, 2, 300, words, POT_WORDS), POT_NO_ROOM, 0);
    CHECK(memcmp(out, "\t\t\t\t", 4) == 0);
}

static void values(void)
{
    uint8_t out[17];
    EXPECT(pot_integer_cast(POT_I64, POT_U32, 300, 0, words, POT_WORDS), 0, 300, 0);
    EXPECT(pot_f64_as_integer(0x4072C00000000000, words, POT_WORDS), 0, POT_I16, 300, 0);
    EXPECT(pot_write_bool(out, sizeof out, 2, words, POT_WORDS), 0, 1);
    CHECK(out[0] == POT_SPECIAL_TRUE);
    EXPECT(pot_write_bytes(out, sizeof out, (const uint8_t *)"", 0, words, POT_WORDS), 0, 1);
    CHECK(out[0] == POT_BYTES << 5);
}

/* Every function refuses an array of so few words by 9, and touches neither it nor what else is lent. */
static void too_few_words(size_t few)
{
    uint64_t before[POT_WORDS];
    uint8_t out[17], nines[sizeof out];
    memset(out, 9, sizeof out);
    memset(nines, 9, sizeof nines);
    soil();
    memcpy(before, words, sizeof words);
#define REFUSES(call)                                                                            \
    do {                                                                                         \
        const uint64_t number = call;                                                            \
        const int kept = memcmp(words, before, sizeof words) == 0;                               \
        CHECK(number == POT_NO_ROOM && kept && memcmp(out, nines, sizeof out) == 0);             \
    } while (0)
    REFUSES(pot_read_header(source, 8, 0, words, few));
    REFUSES(pot_read_header_filled(source, 8, 0, words, few));
    REFUSES(pot_read_header_exact(source, 8, 0, words, few));
    REFUSES(pot_read_atom(source, 8, 5, 9, words, few));
    REFUSES(pot_read_atom_filled(source, 8, 5, 9, words, few));
    REFUSES(pot_read_atom_exact(source, 8, 5, 9, words, few));
    REFUSES(pot_read_atom_copied(source, 8, 5, 9, out, sizeof out, words, few));
    REFUSES(pot_skip_atom(source, 8, 5, 9, words, few));
    REFUSES(pot_run(source, 8, 9, words, few));
    REFUSES(pot_tally(source, 8, words, few));
    REFUSES(pot_check(source, 8, words, few));
    REFUSES(pot_write_header(out, sizeof out, 1, words, few));
    REFUSES(pot_write_atom_header(out, sizeof out, POT_MAP, 1, words, few));
    REFUSES(pot_write_special(out, sizeof out, POT_SPECIAL_UNIT, words, few));
    REFUSES(pot_write_none(out, sizeof out, words, few));
    REFUSES(pot_write_unit(out, sizeof out, words, few));
    REFUSES(pot_write_named(out, sizeof out, words, few));
    REFUSES(pot_write_bool(out, sizeof out, 1, words, few));
    REFUSES(pot_write_i8(out, sizeof out, 1, words, few));
    REFUSES(pot_write_i16(out, sizeof out, 1, words, few));
    REFUSES(pot_write_i24(out, sizeof out, 1, words, few));
    REFUSES(pot_write_i32(out, sizeof out, 1, words, few));
    REFUSES(pot_write_i48(out, sizeof out, 1, words, few));
    REFUSES(pot_write_i64(out, sizeof out, 1, words, few));
    REFUSES(pot_write_i128(out, sizeof out, 1, 0, words, few));
    REFUSES(pot_write_u8(out, sizeof out, 1, words, few));
    REFUSES(pot_write_u16(out, sizeof out, 1, words, few));
    REFUSES(pot_write_u24(out, sizeof out, 1, words, few));
    REFUSES(pot_write_u32(out, sizeof out, 1, words, few));
    REFUSES(pot_write_u48(out, sizeof out, 1, words, few));
    REFUSES(pot_write_u64(out, sizeof out, 1, words, few));
    REFUSES(pot_write_u128(out, sizeof out, 1, 0, words, few));
    REFUSES(pot_write_integer(out, sizeof out, POT_U8, 1, 0, words, few));
    REFUSES(pot_write_bytes(out, sizeof out, source, 8, words, few));
    REFUSES(pot_write_f32(out, sizeof out, 1, words, few));
    REFUSES(pot_write_f64(out, sizeof out, 1, words, few));
    REFUSES(pot_integer_cast(POT_U8, POT_U8, 1, 0, words, few));
    REFUSES(pot_integer_as_f32(POT_U8, 1, 0, words, few));
    REFUSES(pot_integer_as_f64(POT_U8, 1, 0, words, few));
    REFUSES(pot_f32_as_f64(0, words, few));
    REFUSES(pot_f64_as_f32(0, words, few));
    REFUSES(pot_f32_as_integer(0, words, few));
    REFUSES(pot_f64_as_integer(0, words, few));
}

int main(void)
{
    soil();
    atoms();
    places_of_an_atom();
    places_of_the_last_atom();
    letters();
    shortest();
    refusals();
    values();
    /* None, as many as there once were, and one less than there are. */
    too_few_words(0);
    too_few_words(8);
    too_few_words(POT_WORDS - 1);
    return failed;
}
