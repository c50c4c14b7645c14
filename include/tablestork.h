/* Tablestork, from C: start, put, lookup, run, open, pass, read and write over buffers of bytes.
 *
 * The library is what `rt staticlib edge_c` makes. Each function takes every input, ends, and is proved to give what crates/edge_c/specs
 * say. Numbers in the table, the load, the store, the findings and the list work buffer are little-endian, four bytes each; a length is
 * in bytes. The buffers of one call must not overlap, and no pointer may be null; a length may be 0.
 *
 * Each function returns 0, or the number of a refusal; every other number of its result is then 0. Refusals other than 8 and 9 change no
 * buffer, but that a read which answers 3, 7, 11, 13 or 14 makes its load zero, and a write which answers 15 its page. Numbers that a
 * function writes it writes always.
 *
 * A run, an open and a pass need a stack of 11 MB each, a read and a write 4 MB, the others 2 MB. */
#ifndef TABLESTORK_H
#define TABLESTORK_H

#include <stddef.h>
#include <stdint.h>

#ifdef __cplusplus
extern "C" {
#endif

/* The refusals. */
#define TABLESTORK_BROKEN_DICTIONARY 1 /* no sequence of puts after a start leaves these contents */
#define TABLESTORK_RAGGED_LOAD 2       /* not whole triples */
#define TABLESTORK_LOAD_TOO_LONG 3     /* over 16,384 triples; in a read also more than its load has room for */
#define TABLESTORK_ILL_SIZED_STORE 4   /* a buffer of another length than the call takes; of a store, not whole rows of 20 bytes. In a
                                          pass, after 7, also a store that it does not take (see tablestork_pass); in a write also
                                          a triple count above the store's rows */
#define TABLESTORK_BLANK_ID 5          /* an id 0 in the load */
#define TABLESTORK_UNKNOWN_TERM 6      /* an id in the load, or in a row that a write is to write, that is not below the term count */
#define TABLESTORK_DICTIONARY_FULL 7   /* entries or arena bytes do not suffice */
#define TABLESTORK_STORE_FULL 8        /* the closure, or what an open or a pass leaves, has more triples than the store has rows; store,
                                          findings and work are zero */
#define TABLESTORK_FINDINGS_FULL 9     /* more findings than records; store, findings and work are zero */
#define TABLESTORK_UNKNOWN_KIND 10     /* a kind other than 1 to 3 */
#define TABLESTORK_TERM_TOO_LONG 11    /* over 4,096 bytes */
#define TABLESTORK_NO_SUCH_ID 12       /* not below the term count */
#define TABLESTORK_BAD_LINE 13         /* a line that the grammar, UTF-8, an escape or an IRI makes no N-Triples */
#define TABLESTORK_LONG_LINE 14        /* a line of over 32,768 bytes without its end */
#define TABLESTORK_PAGE_FULL 15        /* the text is longer than the lent bytes, which are then all zero */

/* The kinds of a term. */
#define TABLESTORK_NAMED_NODE 1
#define TABLESTORK_BLANK_NODE 2
#define TABLESTORK_LITERAL 3

/* Starts a dictionary: a table of 64 + 4m numbers, m from 31 to 65,535, and an arena of 1,325 to 1,048,576 bytes. Refusals 4, 7. The two
 * counters are written; table, arena and counters are the dictionary of the other calls. */
uint32_t tablestork_start(uint8_t *table, size_t table_len, uint8_t *arena, size_t arena_len, uint32_t *terms, uint32_t *used);

/* Puts a term, and writes its id: the old one where the term is held. Refusals 1, 10, 11, 7. */
uint32_t tablestork_put(uint8_t *table, size_t table_len, uint8_t *arena, size_t arena_len, uint32_t *terms, uint32_t *used,
                        uint32_t kind, const uint8_t *bytes, size_t bytes_len, uint32_t *id);

/* Writes the kind of an id's term, and the place and the length of its bytes in the arena. Refusals 1, 12. */
uint32_t tablestork_lookup(const uint8_t *table, size_t table_len, const uint8_t *arena, size_t arena_len, uint32_t terms, uint32_t used,
                           uint32_t id, uint32_t *kind, uint64_t *begin, uint64_t *len);

/* Closes a load of three numbers a triple. The store gets the answer, a row of five numbers a triple: s, p, o, the pass in which the triple
 * came in, and the lowest rule that gives it in that pass; both are 0 for a starting triple. The findings get five numbers a record. Rows
 * ascend by s, p, o, findings by all five numbers; zeros follow. A store has at most 65,535 rows, 20 bytes each. The list work buffer has
 * two numbers for each term, three terms more counted; it is zero afterwards. The triple count and the five counts, one for each check,
 * are written. Refusals 1 to 9. */
uint32_t tablestork_run(uint8_t *table, size_t table_len, uint8_t *arena, size_t arena_len, uint32_t *terms, uint32_t *used,
                        const uint8_t *load, size_t load_len, uint8_t *store, size_t store_len, uint8_t *findings, size_t findings_len,
                        uint8_t *work, size_t work_len, uint32_t *triples, uint32_t counts[5]);

/* Opens a run that is closed in turns, one pass to a call: lays the starting triples of the load in the store, as rows of pass 0 and rule
 * 0, ascending, then zeros. Writes their number, 0 for done, which an open never is, and five zeros; findings and list work buffer are zero
 * afterwards. Refusals 1 to 8, of which 8 is for the starting triples. The load is lent to each pass again. */
uint32_t tablestork_open(uint8_t *table, size_t table_len, uint8_t *arena, size_t arena_len, uint32_t *terms, uint32_t *used,
                         const uint8_t *load, size_t load_len, uint8_t *store, size_t store_len, uint8_t *findings, size_t findings_len,
                         uint8_t *work, size_t work_len, uint32_t *triples, uint32_t *done, uint32_t counts[5]);

/* One pass: adds to the store all that the rules give from the triples in it, with the lists of the load. New rows have the largest pass of
 * the store and 1, and the lowest rule that gives them; the others stay as they are.
 *
 * Where it adds some, it writes the number of rows, triples with an id 0 counted, 0 for done and five zeros, and findings and list work
 * buffer are zero. The first pass that adds none ends the run: it writes the findings, takes the triples with an id 0 out of the store, and
 * writes 1 for done and the counts of a run. That comes within as many passes as the closure has triples more than the start, and one. The
 * end is that of a run of the load in a store and findings of the same lengths, all five numbers of each row and refusals 8 and 9.
 *
 * Refusals 1 to 7 as in a run; then 4 for a store whose rows, those up to the last that is not five zeros, are not strictly ascending
 * triples of known ids, a run's three terms counted as known, with all starting triples of the load among them and no pass over 65,535;
 * then 8 for the triples of this pass; then 9. Refusal 4 leaves everything as it was, here too. The list work buffer is measured by the
 * terms held now, and three more: an open may put three terms, so one that just suffices for it can be 24 bytes too short for the
 * passes. */
uint32_t tablestork_pass(uint8_t *table, size_t table_len, uint8_t *arena, size_t arena_len, uint32_t *terms, uint32_t *used,
                         const uint8_t *load, size_t load_len, uint8_t *store, size_t store_len, uint8_t *findings, size_t findings_len,
                         uint8_t *work, size_t work_len, uint32_t *triples, uint32_t *done, uint32_t counts[5]);

/* Reads a file of RDF 1.1 N-Triples: puts its terms, and writes its triples in order to the load, three numbers a triple, then zeros, and
 * their count. A file is refused at its first failing line, the dictionary as before and the load all zero. Refusals 1, 2, and then, line
 * by line, 14, 13, 11, 7, 3. */
uint32_t tablestork_read(uint8_t *table, size_t table_len, uint8_t *arena, size_t arena_len, uint32_t *terms, uint32_t *used,
                         const uint8_t *file, size_t file_len, uint8_t *load, size_t load_len, uint32_t *triples);

/* Writes the triples of the first rows of a store, so many as `triples` says, as canonical RDF 1.1 N-Triples: the lines in the order of
 * the rows, each ended by one line feed, then zeros to the end of the page. A triple is left out where its subject is a literal, its
 * predicate no named node, or one of its terms such as no line of N-Triples gives. The text's length in bytes and the number of triples
 * left out are written. Dictionary and store are lent to be read. Refusals 1, 4, also for more triples than the store has rows, and 6, for
 * an id in those rows, change nothing; then 15 leaves the page all zero. */
uint32_t tablestork_write(const uint8_t *table, size_t table_len, const uint8_t *arena, size_t arena_len, uint32_t terms, uint32_t used,
                          const uint8_t *store, size_t store_len, uint32_t triples, uint8_t *page, size_t page_len, uint64_t *length,
                          uint32_t *left);

#ifdef __cplusplus
}
#endif

#endif
