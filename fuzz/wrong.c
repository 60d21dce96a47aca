/* Exports that break what a lender is promised, say wrong places or letters, accept what is not in shortest form, or read by
 * another way than theirs; each is tried alone by self-check. */
#include "dimewagon.h"

#ifdef WRONG_write_none
uint64_t right_write_none(uint8_t *out, size_t out_len, uint64_t *words, size_t words_len);

/* Touches a byte that it does not count. */
uint64_t pot_write_none(uint8_t *out, size_t out_len, uint64_t *words, size_t words_len) {
    if (out_len > 1 && words_len >= POT_WORDS) out[1] = 0;
    return right_write_none(out, out_len, words, words_len);
}
#endif

#ifdef WRONG_f32_as_f64
uint64_t right_f32_as_f64(uint32_t bits, uint64_t *words, size_t words_len);

/* Writes to words that are too few. */
uint64_t pot_f32_as_f64(uint32_t bits, uint64_t *words, size_t words_len) {
    if (words_len == POT_WORDS - 1) words[0] = 0;
    return right_f32_as_f64(bits, words, words_len);
}
#endif

#ifdef WRONG_read_header
/* Takes the bytes past the end as zeros, as it once did. */
uint64_t pot_read_header(const uint8_t *source, size_t source_len, size_t place, uint64_t *words, size_t words_len) {
    return pot_read_header_filled(source, source_len, place, words, words_len);
}
#endif

#ifdef WRONG_read_header_filled
uint64_t right_read_header_filled(const uint8_t *source, size_t source_len, size_t place, uint64_t *words,
                                  size_t words_len);

/* Reads the byte past the source. */
uint64_t pot_read_header_filled(const uint8_t *source, size_t source_len, size_t place, uint64_t *words,
                                size_t words_len) {
    (void)*(const volatile uint8_t *)(source + source_len);
    return right_read_header_filled(source, source_len, place, words, words_len);
}
#endif

#ifdef WRONG_read_atom
/* Takes the bytes past the end as zeros, as it once did. */
uint64_t pot_read_atom(const uint8_t *source, size_t source_len, size_t place, uint64_t budget, uint64_t *words,
                       size_t words_len) {
    return pot_read_atom_filled(source, source_len, place, budget, words, words_len);
}
#endif

#ifdef WRONG_read_atom_filled
uint64_t right_read_atom_filled(const uint8_t *source, size_t source_len, size_t place, uint64_t budget, uint64_t *words,
                                size_t words_len);

/* Refuses a number that is cut, as exact reading does. */
uint64_t pot_read_atom_filled(const uint8_t *source, size_t source_len, size_t place, uint64_t budget, uint64_t *words,
                              size_t words_len) {
    uint64_t number = right_read_atom_filled(source, source_len, place, budget, words, words_len);
    if (number != 0 || words_len < POT_WORDS || words[2] < POT_INT || words[2] > POT_FLOAT) return number;
    return pot_read_atom_exact(source, source_len, place, budget, words, words_len);
}
#endif

#ifdef WRONG_read_atom_exact
uint64_t right_read_atom_exact(const uint8_t *source, size_t source_len, size_t place, uint64_t budget, uint64_t *words,
                               size_t words_len);

/* Says that the body starts where the header does. */
uint64_t pot_read_atom_exact(const uint8_t *source, size_t source_len, size_t place, uint64_t budget, uint64_t *words,
                             size_t words_len) {
    uint64_t number = right_read_atom_exact(source, source_len, place, budget, words, words_len);
    if (words_len >= POT_WORDS) words[POT_BODY] = words[POT_FIRST];
    return number;
}
#endif

#ifdef WRONG_run
uint64_t right_run(const uint8_t *source, size_t source_len, uint64_t budget, uint64_t *words, size_t words_len);

/* Forgets the last atom's places where an atom is refused. */
uint64_t pot_run(const uint8_t *source, size_t source_len, uint64_t budget, uint64_t *words, size_t words_len) {
    uint64_t number = right_run(source, source_len, budget, words, words_len);
    if (number != 0 && words_len >= POT_WORDS) words[POT_FIRST] = words[POT_BODY] = words[POT_AFTER] = 0;
    return number;
}
#endif

#ifdef WRONG_tally
uint64_t right_tally(const uint8_t *source, size_t source_len, uint64_t *words, size_t words_len);

/* Counts CC as no letter at the end of the last string. */
uint64_t pot_tally(const uint8_t *source, size_t source_len, uint64_t *words, size_t words_len) {
    uint64_t number = right_tally(source, source_len, words, words_len);
    if (number == 0 && words_len >= POT_WORDS && words[3] > 0 && source[source_len - 1] == 0xCC) words[3]--;
    return number;
}
#endif

#ifdef WRONG_check
uint64_t right_check(const uint8_t *source, size_t source_len, uint64_t *words, size_t words_len);

/* Accepts what is not in shortest form by a header of two bytes or more. */
uint64_t pot_check(const uint8_t *source, size_t source_len, uint64_t *words, size_t words_len) {
    uint64_t number = right_check(source, source_len, words, words_len);
    if (number != POT_NOT_SHORTEST || !(source[words[0]] & 0x10)) return number;
    words[0] = 0;
    return 0;
}
#endif
