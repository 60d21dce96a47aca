/* Dimewagon: the atoms of dictionary files, read, written and cast.
 *
 *     uint64_t words[POT_WORDS];
 *     uint64_t refusal = pot_read_header(file, length, 0, words, POT_WORDS);
 *     while (!refusal && words[0] < length)
 *         refusal = pot_read_atom(file, length, words[0], UINT64_MAX, words, POT_WORDS);
 *
 * Every function answers a number and writes twelve words. The number is 0, or the refusal's. All twelve are written by
 * every call, with zeros where nothing is said, except that an array of fewer is refused by 9 and nothing is done. What
 * the words hold, from word 0 on, is said at each function; the data of a refusal are two words, named at its number.
 *
 * Words 8 to 10 are the places of an atom, none below the one before: its first place, where its body starts, and the
 * place after it. They are those of the atom that was read or skipped; of a run or a tally, refused or not, those of
 * the last atom that it read. They are zeros where it read none, of an atom that is refused, and in all other answers.
 * Word 11 is 0, kept for what is to come.
 *
 * A program compiled when there were eight words hands over arrays of eight, which are refused by 9: size its arrays by
 * POT_WORDS and compile it again. Words 0 to 7 mean what they meant.
 *
 * A program compiled when pot_read_header and pot_read_atom took bytes past the end as zeros still links, and now has
 * refusal 4 where it had those zeros. If its files are old ones whose trailing zeros were trimmed, let it call
 * pot_read_header_filled and pot_read_atom_filled, which do what those two did, and compile it again. No other function
 * does anything else than it did.
 *
 * A slice is a pointer and a length. Of length 0 the pointer may dangle, but it must not be null; the data() of an empty
 * std::vector may be null. Slices that are written to must not overlap others. A place counts bytes from the source's start,
 * and one past the end counts as the end. A budget of UINT64_MAX is enough for all that a source holds. No function keeps a
 * pointer or anything else between calls, takes memory or fails otherwise, so any thread may call any of them.
 */
#ifndef DIMEWAGON_H
#define DIMEWAGON_H

#include <stddef.h>
#include <stdint.h>

#ifdef __cplusplus
extern "C" {
#endif

/* The words that a call writes. */
#define POT_WORDS 12

/* The words of an atom's places: its first place, where its body starts, and the place after it. */
#define POT_FIRST 8
#define POT_BODY 9
#define POT_AFTER 10

/* The refusals. */
enum {
    POT_INCOMPATIBLE_VERSION = 1,           /* the signature's bits are missing */
    POT_INVALID_KIND = 2,                   /* a code that no kind has; the code */
    POT_UNKNOWN_SPECIAL = 3,                /* a code that no special has; the code */
    POT_EOF = 4,                            /* the input ends */
    POT_TOO_MANY_BYTES_READ = 5,            /* the charge exceeds the budget */
    POT_UNSUPPORTED_BYTE_COUNT = 6,         /* a number of a width that is not allowed; its kind's code, its bytes */
    POT_UNEXPECTED_KIND = 7,                /* a number of another kind; its kind's code and the wanted one's. No function
                                             * here answers it */
    POT_IMPRECISE_CAST_WOULD_LOSE_DATA = 8, /* a cast that would lose data, or a value that its writer or variant does not
                                             * hold */
    POT_NO_ROOM = 9,                        /* no room in `out`, in `scratch`, or for the twelve words */
    POT_TOO_LONG = 10,                      /* a tally's input of more than 16,777,216 bytes */
    POT_NOT_SHORTEST = 11                   /* an atom that is whole and known, in more bytes than it needs */
};

/* The kinds of an atom. */
enum { POT_SPECIAL, POT_INT, POT_UINT, POT_FLOAT, POT_SEQUENCE, POT_MAP, POT_SYMBOL, POT_BYTES };

/* The specials: the argument of an atom of that kind. */
enum {
    POT_SPECIAL_NONE,
    POT_SPECIAL_UNIT,
    POT_SPECIAL_FALSE,
    POT_SPECIAL_TRUE,
    POT_SPECIAL_NAMED,
    POT_SPECIAL_DYNAMIC_MAP,
    POT_SPECIAL_DYNAMIC_END
};

/* What an atom holds: word 4 of an atom that was read, and words 5 to 7. */
enum {
    POT_NONE,        /* nothing more: the special None, a sequence, a map or a symbol */
    POT_BOOLEAN,     /* 0 or 1 */
    POT_INTEGER,     /* variant, low word, high word: two's complement in 128 bits */
    POT_FLOATING,    /* 4 or 8, the value's bits at that width in bytes, the stored bits */
    POT_STRING,      /* start, length, 1 if it is a part of the source, 0 if of the scratch */
    POT_UNIT,
    POT_NAMED,
    POT_DYNAMIC_MAP,
    POT_DYNAMIC_END
};

/* The variants of an integer. */
enum { POT_I8, POT_I16, POT_I32, POT_I64, POT_I128, POT_U8, POT_U16, POT_U32, POT_U64, POT_U128 };

/* Reads the signature of a file at a place. Words: place after, version. The first names no way and reads exactly, as
 * the third does: bytes past the end are refused. The second takes them as zeros: it is for an old file whose trailing
 * zeros were trimmed, and it cannot tell such a file from one that was cut. */
uint64_t pot_read_header(const uint8_t *source, size_t source_len, size_t place, uint64_t *words, size_t words_len);
uint64_t pot_read_header_filled(const uint8_t *source, size_t source_len, size_t place, uint64_t *words, size_t words_len);
uint64_t pot_read_header_exact(const uint8_t *source, size_t source_len, size_t place, uint64_t *words, size_t words_len);

/* Reads one atom at a place, with a budget for what its value takes in memory. Words: place after, budget left; then
 * kind, argument, what it holds, its three words and its places; or the refusal's data. The first names no way and
 * reads exactly, as the third does: bytes past the end are refused, and a string is answered by where it is in the
 * source. The second takes header and number bytes past the end as zeros, so that an atom at the end has the end for
 * all its places and a loop must stop by the place; it is for an old file whose trailing zeros were trimmed, and it
 * cannot tell such a file from one that was cut. The fourth reads exactly and copies a string into the scratch. */
uint64_t pot_read_atom(const uint8_t *source, size_t source_len, size_t place, uint64_t budget, uint64_t *words, size_t words_len);
uint64_t pot_read_atom_filled(const uint8_t *source, size_t source_len, size_t place, uint64_t budget, uint64_t *words, size_t words_len);
uint64_t pot_read_atom_exact(const uint8_t *source, size_t source_len, size_t place, uint64_t budget, uint64_t *words, size_t words_len);
uint64_t pot_read_atom_copied(const uint8_t *source, size_t source_len, size_t place, uint64_t budget, uint8_t *scratch, size_t scratch_len, uint64_t *words, size_t words_len);

/* Reads one atom exactly and builds no value. Words: place after, budget left; then where its body starts, 1 if it is a
 * string, and its places in words 8 to 10; or the refusal's data. */
uint64_t pot_skip_atom(const uint8_t *source, size_t source_len, size_t place, uint64_t budget, uint64_t *words, size_t words_len);

/* Reads all atoms of a source, which has no signature, exactly. Words: place, budget left, atoms; of a refused atom
 * also where it starts, and the data; the places of the last atom that was read in words 8 to 10. */
uint64_t pot_run(const uint8_t *source, size_t source_len, uint64_t budget, uint64_t *words, size_t words_len);

/* Counts all atoms of a source, which has no signature, exactly and without a budget. Words: atoms, body bytes, charge,
 * letters; or where the refused atom starts, and the data; the places of the last atom that was read in words 8 to 10.
 * An input that is too long is refused as a whole: it has no place, and its words are zeros. A letter is a string's
 * byte outside 0x80 to 0xBF; but within a string the pair 0xCC with 0x80 to 0xBF, or 0xCD with 0x80 to 0xAF, which is a
 * combining mark from U+0300 to U+036F, counts as none. */
uint64_t pot_tally(const uint8_t *source, size_t source_len, uint64_t *words, size_t words_len);

/* Checks that all atoms of a source, which has no signature and any length, are whole, known and in shortest form: a
 * header of the fewest bytes, a number of the smallest count that holds it, a float of the smallest width that has its
 * value. A NaN may have any width. Sources that are accepted and mean the same have the same bytes. Words: none; or
 * where the first refused atom starts, and the data. An atom is refused by 3, 4 or 6 as it is by exact reading, and by
 * 11 only if by none of these. */
uint64_t pot_check(const uint8_t *source, size_t source_len, uint64_t *words, size_t words_len);

/* Writers. Each writes to the first bytes of `out`, in the fewest, or nothing. Words: how many bytes, or the data. */
uint64_t pot_write_header(uint8_t *out, size_t out_len, uint8_t version, uint64_t *words, size_t words_len);
/* A kind's code and an argument: of a sequence, a map or a symbol, the whole atom. */
uint64_t pot_write_atom_header(uint8_t *out, size_t out_len, uint8_t kind, uint64_t arg, uint64_t *words, size_t words_len);
/* A special by its code. */
uint64_t pot_write_special(uint8_t *out, size_t out_len, uint64_t special, uint64_t *words, size_t words_len);
uint64_t pot_write_none(uint8_t *out, size_t out_len, uint64_t *words, size_t words_len);
uint64_t pot_write_unit(uint8_t *out, size_t out_len, uint64_t *words, size_t words_len);
uint64_t pot_write_named(uint8_t *out, size_t out_len, uint64_t *words, size_t words_len);
/* False if the value is 0, else true. */
uint64_t pot_write_bool(uint8_t *out, size_t out_len, uint8_t value, uint64_t *words, size_t words_len);
/* Integers; of 24 and 48 bits, a value outside them is refused by 8. Of 128 bits, the low and the high word. */
uint64_t pot_write_i8(uint8_t *out, size_t out_len, int8_t value, uint64_t *words, size_t words_len);
uint64_t pot_write_i16(uint8_t *out, size_t out_len, int16_t value, uint64_t *words, size_t words_len);
uint64_t pot_write_i24(uint8_t *out, size_t out_len, int32_t value, uint64_t *words, size_t words_len);
uint64_t pot_write_i32(uint8_t *out, size_t out_len, int32_t value, uint64_t *words, size_t words_len);
uint64_t pot_write_i48(uint8_t *out, size_t out_len, int64_t value, uint64_t *words, size_t words_len);
uint64_t pot_write_i64(uint8_t *out, size_t out_len, int64_t value, uint64_t *words, size_t words_len);
uint64_t pot_write_i128(uint8_t *out, size_t out_len, uint64_t low, uint64_t high, uint64_t *words, size_t words_len);
uint64_t pot_write_u8(uint8_t *out, size_t out_len, uint8_t value, uint64_t *words, size_t words_len);
uint64_t pot_write_u16(uint8_t *out, size_t out_len, uint16_t value, uint64_t *words, size_t words_len);
uint64_t pot_write_u24(uint8_t *out, size_t out_len, uint32_t value, uint64_t *words, size_t words_len);
uint64_t pot_write_u32(uint8_t *out, size_t out_len, uint32_t value, uint64_t *words, size_t words_len);
uint64_t pot_write_u48(uint8_t *out, size_t out_len, uint64_t value, uint64_t *words, size_t words_len);
uint64_t pot_write_u64(uint8_t *out, size_t out_len, uint64_t value, uint64_t *words, size_t words_len);
uint64_t pot_write_u128(uint8_t *out, size_t out_len, uint64_t low, uint64_t high, uint64_t *words, size_t words_len);
/* An integer by its variant, low and high word in two's complement. */
uint64_t pot_write_integer(uint8_t *out, size_t out_len, uint64_t variant, uint64_t low, uint64_t high, uint64_t *words, size_t words_len);
/* A string. */
uint64_t pot_write_bytes(uint8_t *out, size_t out_len, const uint8_t *value, size_t value_len, uint64_t *words, size_t words_len);
/* Floats by their bits, a NaN's too. */
uint64_t pot_write_f32(uint8_t *out, size_t out_len, uint32_t bits, uint64_t *words, size_t words_len);
uint64_t pot_write_f64(uint8_t *out, size_t out_len, uint64_t bits, uint64_t *words, size_t words_len);

/* Casts of an integer, given by its variant, low and high word; a value that its variant does not hold is refused by 8, and
 * so is a variant wider than the target, whatever its value: a POT_I16 of 5 is no POT_U8. To an integer of the variant `to`;
 * words: low word, high word. To a float, of a value from -2^24 to 2^24 - 1, or -2^53 to 2^53 - 1; words: its bits. */
uint64_t pot_integer_cast(uint64_t to, uint64_t variant, uint64_t low, uint64_t high, uint64_t *words, size_t words_len);
uint64_t pot_integer_as_f32(uint64_t variant, uint64_t low, uint64_t high, uint64_t *words, size_t words_len);
uint64_t pot_integer_as_f64(uint64_t variant, uint64_t low, uint64_t high, uint64_t *words, size_t words_len);

/* Casts of a float, given by its bits. To a float of equal value; words: its bits. To an integer, of a whole value, clamped to
 * 32 or 64 bits, or one that is nearly zero; words: variant, low word, high word. */
uint64_t pot_f32_as_f64(uint32_t bits, uint64_t *words, size_t words_len);
uint64_t pot_f64_as_f32(uint64_t bits, uint64_t *words, size_t words_len);
uint64_t pot_f32_as_integer(uint32_t bits, uint64_t *words, size_t words_len);
uint64_t pot_f64_as_integer(uint64_t bits, uint64_t *words, size_t words_len);

#ifdef __cplusplus
}
#endif

#endif
