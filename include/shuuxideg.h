/*
 * Shuuxideg: which headings a pattern matches within a cut, and with which symbols. For C11 and C++ on x86-64 Linux; link libcapi.a, which
 * `tools/library` writes.
 *
 * WHAT THE CALLS ARE ABOUT
 *
 * A table has up to 512 symbols, numbered from 0. Each has an arity, the number of arguments that it takes, 0 to 8. A degree says how near two
 * symbols are, in thousandths: a symbol has 1000 with itself, two symbols that the table lists as a pair have the pair's degree, in either order,
 * which is 1 to 999, and any other two have 0; so at cut 1000 only the same is found. Nearness is not passed on: that a is near b and b near c
 * says nothing of a and c. A table is lent as the bytes of a table file, which shx_write_table makes and docs/FORMATS.md describes.
 *
 * A term is lent as its nodes in preorder, 16 bits each: a symbol, then its arguments one after the other. A node below the number of symbols is a symbol;
 * 32768 to 32799 are the variables 0 to 31; any other number is neither. A term has 1 to 1024 nodes and is at most 64 deep (one node alone has
 * depth 1). A heading is a term without variables, a pattern may have some.
 *
 * Two headings are compared from their first symbols down. Where those differ in arity or have degree 0, the headings have that degree; otherwise
 * the lowest of it and of what their arguments have, each compared with the one at its place in the other heading.
 *
 * WHAT A CALL RETURNS
 *
 * Most calls return one uint32_t; shx_marc_heading returns a uint64_t, since a place in a record can be above 65,535. 0: accepted. Otherwise the
 * low 16 bits are the number of the refusal and all bits above them the place: SHX_NUMBER(r) and SHX_PLACE(r), for either width. What else a call
 * gives it stores through its pointers; a call that is refused leaves them untouched, but for shx_match, as said there. The tests are made in the
 * order of this table, and the first that holds is given (1 twice: a file shorter than a header is refused by 1 before all else, wrong offsets or
 * lengths after 2; and shx_marc_heading tests for 19 before all else).
 *
 *   No.  Refused because                                                      Place                              By
 *    1   the table has under 10 bytes; or an offset or a length in its        0                                  every call with a table
 *        header is not what its counts ask for; or it has another length
 *    2   it has no symbol or over 512, or over 8192 pairs                     0                                  those; shx_write_table
 *    3   an arity is above 8                                                  the first such symbol              those; shx_write_table
 *    4   a pair's lower symbol is not below its higher one, the higher is     the first such pair, from 0        those; shx_write_table
 *        no symbol, their arities differ, the degree is not 1 to 999, or
 *        the pair does not come after the one before it
 *    5   the cut is not 1 to 1000                                             0                                  shx_match
 *    6   the pattern is no term; or the first heading is no heading           the fault, see below               shx_match; shx_heading_degree
 *    7   the heading, or the second one, is no heading                        the fault, see below               shx_match; shx_heading_degree
 *    8   spans or sets are too short; the output is shorter than what is      0                                  shx_match; shx_write_table;
 *        to be written; the saved words are not of whole sets                                                    shx_widen; shx_marc_heading
 *    9   a symbol of the pattern is not near enough to the one it faces       the first such node's index        shx_match
 *   10   no one term is near enough to all that faces some variable           the least such variable's number   shx_match
 *   13   one of the two numbers is no symbol of the table                     0 for the first, else 1            shx_symbol_degree
 *   14   no symbol has that number, or no pair that index                     0                                  shx_arity; shx_pair
 *   17   the record's frame has a fault                                       the byte, see shx_marc_heading     shx_marc_heading
 *   19   a known string is listed a second time, or it has the number that    the first such entry, from 0; of   shx_marc_heading
 *        says that there are no dates                                         two equal strings the later
 *   20   the record has no 100 field                                          0                                  shx_marc_heading
 *   21   its first 100 field has no name                                      0                                  shx_marc_heading
 *   22   the name is not listed, or the dates are there and not listed        0 for the name, 1 for the dates    shx_marc_heading
 *
 * The place of a fault in a list of nodes: 1024 where the list has more nodes than that; otherwise the first index at which the term had already
 * ended, a node stands that may not stand there, or the depth would be 65; and the list's length where the term is not complete.
 *
 * WHAT A CALLER OWES
 *
 * - A pointer and the count after it lend that many elements (not bytes): all readable, and those behind a pointer to non-const also writable,
 *   until the call returns. A pointer to a single number lends that number.
 * - No pointer is null, not even that of an empty list; there any address will do that is aligned for the element, and nothing is read from it.
 * - Every pointer is aligned as its C type asks.
 * - What a call may write (all that is not const) overlaps nothing else that is lent to that call. Lists that are only read may overlap.
 * - Nothing else writes to what is lent while the call runs.
 * - The thread's stack has room: 104 KB for shx_match, whatever its table is, 52 KB for shx_write_table, however few its pairs are, 68 KB
 *   for shx_marc_heading with a list of more than 24 strings that do not rise, 3 KB for shx_heading_degree and shx_nearer, 1 KB for any other call.
 *
 * Beyond that nothing is asked: every table, list and number is accepted or refused as above. The calls keep nothing, allocate nothing and can run
 * in several threads at once. What each does for every input is proved (crates/capi/specs); that a C caller keeps the list above is not.
 */
#ifndef SHUUXIDEG_H
#define SHUUXIDEG_H

#include <stddef.h>
#include <stdint.h>

/* The number and the place of what a call returned; number 0: accepted. The place has the type of what was returned, uint32_t or uint64_t. */
#define SHX_NUMBER(r) ((uint16_t)((r) & 0xFFFFu))
#define SHX_PLACE(r) ((r) >> 16)

/* the node of variable v, 0 to 31 */
#define SHX_VARIABLE(v) ((uint16_t)(32768u + (v)))

/* how many numbers spans has, and how many words of sets a node of the heading takes; how many it took while a table had up to 256 symbols */
#define SHX_SPANS 128
#define SHX_SET_WORDS 8
#define SHX_SAVED_WORDS 4

/* whether symbol k is in the set at position p */
#define SHX_HAS(sets, p, k) (((sets)[SHX_SET_WORDS * (size_t)(p) + (k) / 64] >> ((k) % 64)) & 1u)

#ifdef __cplusplus
extern "C" {
#endif

/* A pair as shx_write_table takes it: two symbols, the lower first, and their degree. */
struct shx_pair_record {
    uint16_t lower;
    uint16_t higher;
    uint16_t degree;
};

/* Is this a table? Refusals 1 to 4. */
uint32_t shx_table(const uint8_t *table, size_t table_len);

/* Stores the degree of two symbol numbers. A number that is no symbol of the table is refused, at 0 or 1 for the first or the second (0 if neither
 * is one); degree 0 is for two symbols that are not near. Refusals 1 to 4 and 13. */
uint32_t shx_symbol_degree(const uint8_t *table, size_t table_len, uint16_t a, uint16_t b, uint16_t *degree);

/* Stores how many arguments a symbol takes. Refusals 1 to 4 and 14. */
uint32_t shx_arity(const uint8_t *table, size_t table_len, uint16_t symbol, uint8_t *arity);

/* Stores the pair at an index of the table's list, counted from 0. Refusals 1 to 4 and 14. */
uint32_t shx_pair(const uint8_t *table, size_t table_len, size_t index, uint16_t *lower, uint16_t *higher, uint16_t *degree);

/* Stores how near two headings are. Refused by 1 to 4 for the table, by 6 for the first heading, by 7 for the second. */
uint32_t shx_heading_degree(
    const uint8_t *table, size_t table_len, const uint16_t *first, size_t first_len, const uint16_t *second, size_t second_len, uint16_t *degree);

/*
 * Returns how many nodes the subterm has that starts at an index of a term; it is term[index] and the nodes behind it. 0, for the empty part where
 * the list begins, if there is no such node or one of the two is refused. Variables are permitted.
 */
size_t shx_subterm(const uint8_t *table, size_t table_len, const uint16_t *term, size_t term_len, size_t index);

/*
 * Returns which of two candidates has the higher degree with a heading: 1 the first, also where both have the same degree, even 0; 2 the second;
 * 0 where the table or one of the three headings is refused.
 */
uint8_t shx_nearer(
    const uint8_t *table, size_t table_len, const uint16_t *heading, size_t heading_len, const uint16_t *first, size_t first_len, const uint16_t *second,
    size_t second_len);

/*
 * Every way to fill the pattern's variables so that it has at least degree `cut` with the heading. Refusals 1 to 10; 9 and 10 mean that there is
 * none.
 *
 * Accepted: *lowest and *highest are the lowest and the highest degree that is reached, and
 *   spans   (at least SHX_SPANS numbers) tells, for variable v, its first position spans[4 * v] and how many positions it has, spans[4 * v + 1]:
 *           one for each node of the terms that may stand for it, in preorder. A variable with 0 positions is not in the pattern. spans[4 * v + 2]
 *           and spans[4 * v + 3] are its own lowest and highest degree: so near to all that it faces is the worst term for it, and so near the best.
 *   sets    (at least SHX_SET_WORDS words for each node of the heading) has at position p the symbols that may stand there, symbol k as bit k % 64
 *           of word SHX_SET_WORDS * p + k / 64: SHX_HAS(sets, p, k).
 *   Choosing one symbol from each set of each variable gives all the ways, and each choice is one. Behind what is used both buffers are 0.
 *
 * Refused: *lowest and *highest are 0. 1 to 8 leave spans and sets as they were, 9 and 10 fill both with 0.
 */
uint32_t shx_match(
    const uint8_t *table, size_t table_len, const uint16_t *pattern, size_t pattern_len, const uint16_t *heading, size_t heading_len, uint16_t cut,
    uint16_t *spans, size_t spans_len, uint64_t *sets, size_t sets_len, uint16_t *lowest, uint16_t *highest);

/*
 * Writes the table file of so many symbols, by their arities, and so many pairs to the front of out, and stores its length, 10 + symbols +
 * 6 * count; what out has behind it stays. Pairs rise by lower symbol, then by higher. Refusals 2, 3, 4 and 8, which change nothing.
 */
uint32_t shx_write_table(
    const uint8_t *arities, size_t symbols, const struct shx_pair_record *pairs, size_t count, uint8_t *out, size_t out_len, size_t *total);

/*
 * The sets of an answer that was saved while a set had SHX_SAVED_WORDS words, made sets of today: each set's words and zeros behind them, to the
 * front of out. Stores how many words were written, twice words_len; what out has behind them stays. Spans and degrees of a saved answer stay
 * as they are. Refusal 8, which changes nothing, where words_len is no multiple of SHX_SAVED_WORDS, or out_len below twice words_len.
 */
uint32_t shx_widen(const uint64_t *words, size_t words_len, uint64_t *out, size_t out_len, size_t *written);

/*
 * Reads an authority record of MARC 21, in the frame of ISO 2709, and writes its heading: `heading`, the number of the name, the number of the
 * dates. These three go to the front of nodes; what nodes has behind them stays.
 *
 * The name is the text of the first subfield a in the first 100 field, the dates that of the first subfield d in the same field; the first field is
 * the one that the directory has first, wherever it stands. Where there is no subfield d the third node is `absent`. What stands between the two
 * indicators and the first 1F is passed over; a 1F opens a subfield by the byte behind it. Texts are taken as they are: a closing comma counts.
 *
 * Known strings: they stand in text one behind the other. String j has the bytes from ends[j - 1], or from 0 for the first, up to before ends[j]; its
 * number is numbers[j]. There are as many strings as the shorter of ends and numbers has entries. What would lie behind the last byte of text is
 * not there, and an end below its beginning gives the empty string; so every such list can be read. A text has the number of the string that has
 * the same bytes and as many.
 *
 * Refusals, tested in this order, each of which changes nothing:
 *   19   at the first entry whose string stands before it too, or whose number is `absent`;
 *    8   nodes_len is below 3;
 *   17   at the first byte of what is wrong, which is the first of these: the record has under 26 bytes (place 0); its length, bytes 0 to 4, is not
 *        record_len; its base address, bytes 12 to 16, is not 25 + 12 for each entry, or not below the length; in an entry, each in turn, the
 *        field's length is 0, or its start is such that the field does not end before the record's last byte; no 1E stands before the base
 *        address; no 1E ends a field, in the directory's order; the last byte is not 1D. A number that is not of digits alone is wrong;
 *   20   no 100 field;
 *   21   no subfield a in it;
 *   22   the name is not listed (0), the dates are not (1).
 * A place above 2^48 - 1, in a list that no memory holds, would be told as 2^48 - 1.
 *
 * No table is lent: whether `heading` is a symbol with two arguments, and the other numbers are symbols too, is found by the calls that take the
 * nodes as a heading.
 *
 * The time grows with the record's bytes, and with the list, which every call tests. Best are strings that rise (byte by byte; one that ends first
 * stands first): then the test is one walk over the list, and a text is sought by halving. In any other order a text is sought by one walk, and in the
 * test a string is held against those before it that have the same digest, one of 16,384. So many strings are gone over in one walk; with more, the
 * ones behind are gone over again for each further 16,384. With strings that are chosen for it, so that they share a digest, the test grows with the
 * square of their number.
 */
uint64_t shx_marc_heading(
    const uint8_t *record, size_t record_len, const uint8_t *text, size_t text_len, const uint32_t *ends, size_t ends_len, const uint16_t *numbers,
    size_t numbers_len, uint16_t heading, uint16_t absent, uint16_t *nodes, size_t nodes_len);

#ifdef __cplusplus
}
#endif

#endif
