/* The C interface of libsubgroups.a: lists of words folded; tables asked, compared, given a basis, saved and loaded.
 * docs/USING.md has an example of each function.
 *
 * Words. n is the alphabet size, 1 to 26. A list is words over a..z and A..Z (a capital is the inverse), each ended by
 * byte 10. L is the number of its letters as written. A query is letters alone. A table handed in is n, its points
 * and its cells, 2n for each point; cells behind those are not looked at.
 *
 * What a caller must see to; nothing else is asked, and every value gets an answer or a refusal:
 *   - each pointer leads to as many items as the length behind it says: bytes, or 32-bit cells aligned as such;
 *     a length counts items; a buffer of length 0 may have any pointer;
 *   - a buffer that is not const overlaps no other buffer of the call;
 *   - nobody else writes a buffer of the call, or reads one that is not const, before the call is over.
 * No function allocates, keeps a pointer or has a state: threads may call at once, each with its own buffers.
 *
 * Of each function: its refusals in their order, and what each leaves in the buffers. Where nothing is refused the
 * needed work cells hold 0, an output changes in the part written alone, and all later cells are as they were.
 */
#ifndef SUBGROUPS_H
#define SUBGROUPS_H

#include <stddef.h>
#include <stdint.h>

#ifdef __cplusplus
extern "C" {
#endif

/* The cell of a letter that leads nowhere. */
#define SUBGROUPS_ABSENT UINT32_C(4294967295)

/* The longest list or query, and the most points of a table. */
#define SUBGROUPS_MOST_BYTES 1048576
#define SUBGROUPS_MOST_POINTS 1048577

/* Numbers of refusal, and what the place then tells. */
enum subgroups_refusal {
    SUBGROUPS_ALPHABET = 1,  /* n not 1 to 26, or not the same of two tables; 0 */
    SUBGROUPS_BYTES = 2,     /* list, query or list text over 1,048,576 bytes; 0 */
    SUBGROUPS_BYTE = 3,      /* byte not a letter, nor, in a list, byte 10; its offset */
    SUBGROUPS_LETTER = 4,    /* letter beyond n; its offset, in a file that of its number's first byte */
    SUBGROUPS_UNENDED = 5,   /* list not ended by byte 10; its length */
    SUBGROUPS_TABLE = 6,     /* table too short, or points not 1 to 1,048,577; 0 */
    SUBGROUPS_WORK = 7,      /* work too short; cells needed */
    SUBGROUPS_CANONICAL = 8, /* table not canonical; its lowest faulty cell */
    SUBGROUPS_OUTPUT = 9,    /* output too short; length needed */
    SUBGROUPS_NUMBER = 10,   /* number in a file cut, too long or too big; its first byte, or the file's length */
    SUBGROUPS_KIND = 11,     /* file of neither kind; 0 */
    SUBGROUPS_AFTER = 12     /* bytes behind the end of a file; the first of them */
};

/* A refusal in words, to be followed by its place. */
static inline const char *subgroups_words(uint64_t number)
{
    switch (number) {
    case 0: return "not refused";
    case SUBGROUPS_ALPHABET: return "n must be 1 to 26, and the same for two tables";
    case SUBGROUPS_BYTES: return "text longer than 1,048,576 bytes";
    case SUBGROUPS_BYTE: return "no letter at byte";
    case SUBGROUPS_LETTER: return "letter beyond n at byte";
    case SUBGROUPS_UNENDED: return "line end missing at byte";
    case SUBGROUPS_TABLE: return "table too short, or its points are not 1 to 1,048,577";
    case SUBGROUPS_WORK: return "work buffer too short, cells needed:";
    case SUBGROUPS_CANONICAL: return "table not canonical, first at cell";
    case SUBGROUPS_OUTPUT: return "output too short, length needed:";
    case SUBGROUPS_NUMBER: return "number in the file cut, too long or too big at byte";
    case SUBGROUPS_KIND: return "file of neither kind";
    case SUBGROUPS_AFTER: return "bytes behind the end of the file, from byte";
    default: return "unknown refusal";
    }
}

/* Every answer but one tells first a refusal: its number, 0 if there is none, and its place. Where it is refused,
 * all else is 0; so is all that does not apply. */

/* The answer to folding. */
typedef struct {
    uint64_t number, place;
    uint64_t points, edges, rank;       /* of the folded graph */
    uint64_t finite, index;             /* 1 and the index, or 0 and 0 where it is infinite */
    uint64_t start_points, start_edges; /* of the start graph */
    uint64_t merging, closing;          /* folds of each kind */
} FoldReply;

/* The answer to a question. */
typedef struct {
    uint64_t number, place;
    uint64_t yes; /* 1 for yes, 0 for no */
} YesReply;

/* The answer to checking a table. */
typedef struct {
    uint64_t number, place;
    uint64_t edges, rank;   /* of the table */
    uint64_t finite, index; /* 1 and the index, or 0 and 0 where it is infinite */
} CheckReply;

/* The answer to writing. */
typedef struct {
    uint64_t number, place;
    uint64_t words, bytes; /* written; words are told of a basis alone */
} WrittenReply;

/* The answer to which of two lists is the shorter: no refusal. */
typedef struct {
    uint64_t which; /* 1 the first, 2 the second, 0 neither */
    uint64_t bytes; /* of that list */
} PartReply;

/* The answer to expressing. */
typedef struct {
    uint64_t number, place;
    uint64_t yes;   /* 1 for a member, 0 for none */
    uint64_t count; /* numbers written */
} ExpressReply;

/* The answer to loading. */
typedef struct {
    uint64_t number, place;
    uint64_t kind;         /* 1 a table, 2 a list, 0 refused */
    uint64_t n;            /* of either */
    uint64_t points;       /* of a table */
    uint64_t words, bytes; /* of a list */
} LoadReply;

/* Folds a list into a table of (L + 1) * 2n cells with 8 * (L + 1) of work; behind the rows stands SUBGROUPS_ABSENT.
 * Refusals 1, 2, 3 or 4, 5, 6, 7: no cell changes. */
FoldReply subgroups_fold(uint64_t n, const uint8_t *list, size_t list_len,
                         uint32_t *table, size_t table_len, uint32_t *work, size_t work_len);

/* Folds a list and says whether a query is a member; work as for the list, and no less than the query's length.
 * Refusals 1, 2, 3 or 4, 5, 6, 7, of each the list's before the query's: no cell changes. */
YesReply subgroups_ask(uint64_t n, const uint8_t *list, size_t list_len,
                       const uint8_t *query, size_t query_len,
                       uint32_t *table, size_t table_len, uint32_t *work, size_t work_len);

/* Counts edges, rank and index of a table.
 * Refusals 1, 6, 8: there is no buffer to change. */
CheckReply subgroups_check(uint64_t n, uint64_t points, const uint32_t *table, size_t table_len);

/* Says whether a query is a member of a table's subgroup; work of the query's length.
 * Refusals 1, 2, 3 or 4, 6, 7, 8: no cell changes. */
YesReply subgroups_member(uint64_t n, uint64_t points, const uint32_t *table, size_t table_len,
                          const uint8_t *query, size_t query_len, uint32_t *work, size_t work_len);

/* Says whether two tables are equal: the same points and the same cells.
 * Refusals 1, 6 of the first, 6 of the second, 8 of the first, 8 of the second: there is no buffer to change. */
YesReply subgroups_equal(uint64_t n, uint64_t points, const uint32_t *table, size_t table_len,
                         uint64_t other_n, uint64_t other_points, const uint32_t *other, size_t other_len);

/* Says whether a table's subgroup is normal; work of 4 * points cells.
 * Refusals 1, 6, 7, 8: no cell changes. */
YesReply subgroups_normal(uint64_t n, uint64_t points, const uint32_t *table, size_t table_len,
                          uint32_t *work, size_t work_len);

/* Writes the basis of a table's subgroup as a list; work of 4 * points cells.
 * Refusals 1, 6, 7, 8: no cell and no byte changes. 9: the needed work cells are 0, and no byte changes. */
WrittenReply subgroups_basis(uint64_t n, uint64_t points, const uint32_t *table, size_t table_len,
                             uint32_t *work, size_t work_len, uint8_t *out, size_t out_len);

/* Expresses a query in the basis: k for basis word k, -k for its inverse; work of the query's length. A query that is
 * no member writes nothing.
 * Refusals 1, 2, 3 or 4, 6, 7, 8: nothing changes. 9: the needed work cells are 0, and the output does not change. */
ExpressReply subgroups_express(uint64_t n, uint64_t points, const uint32_t *table, size_t table_len,
                               const uint8_t *query, size_t query_len, uint32_t *work, size_t work_len,
                               int32_t *out, size_t out_len);

/* Says which of two lists has fewer letters, the first on a tie; a list that is refused never comes before one that
 * is not. Nothing is refused: where both lists are, or n is, the reply is 0 and 0. */
PartReply subgroups_shorter(uint64_t n, const uint8_t *first, size_t first_len,
                            const uint8_t *second, size_t second_len);

/* Saves a table as a file of kind 1.
 * Refusals 1, 6, 8, 9: no byte changes. */
WrittenReply subgroups_save_table(uint64_t n, uint64_t points, const uint32_t *table, size_t table_len,
                                  uint8_t *out, size_t out_len);

/* Saves a list as a file of kind 2.
 * Refusals 1, 2, 3 or 4, 5, 9: no byte changes. */
WrittenReply subgroups_save_list(uint64_t n, const uint8_t *list, size_t list_len, uint8_t *out, size_t out_len);

/* Loads a file of either kind: a table into the table, a list into the text. Cells and bytes as many as the file has
 * bytes are enough for every whole file; the other kind's buffer is not touched and may have length 0.
 * Refusals in the order of the file: kind 10, 11; n 10, 1; points 10, 6 or number of words 10; the other numbers 10
 * or 4; 12; then 8 of a table, or 2 and 9 of a list. 8: the table's points * 2n cells are SUBGROUPS_ABSENT. Others:
 * nothing changes. */
LoadReply subgroups_load(const uint8_t *file, size_t file_len,
                         uint32_t *table, size_t table_len, uint8_t *text, size_t text_len);

#ifdef __cplusplus
}
#endif

#endif
