/* The library called from C through its header: every function on good input and on each of its refusals, with
 * guard cells behind every buffer. */

#include <stdio.h>
#include <string.h>

#include "subgroups.h"

static const char list[] = "aaB\nbAba\nabA\naaaaaa\n"; /* 16 letters, n = 2 */
static const char basis_text[] = "b\naa\nabA\n";
static const uint32_t rows[8] = {1, 1, 0, 0, 0, 0, 1, 1}; /* of the list */

enum { TABLE = 17 * 4, WORK = 17 * 8, BYTES = 64, NUMBERS = 16, AFTER = 3, LONG = 1048577 };

static uint32_t table[TABLE + AFTER], work[WORK + AFTER];
static uint8_t out[BYTES + AFTER];
static int32_t numbers[NUMBERS + AFTER];
static char text[LONG + 1];
static int passed, failed;

static void check(const char *what, int holds)
{
    if (holds) {
        passed++;
    } else {
        failed++;
        printf("failed: %s\n", what);
    }
}

static void lend(void)
{
    for (size_t i = 0; i < TABLE + AFTER; i++) table[i] = 777;
    for (size_t i = 0; i < WORK + AFTER; i++) work[i] = 777;
    for (size_t i = 0; i < NUMBERS + AFTER; i++) numbers[i] = -777;
    memset(out, 77, sizeof out);
}

/* Whether cells from .. to all hold x. */
static int all(const uint32_t *cells, size_t from, size_t to, uint32_t x)
{
    for (size_t i = from; i < to; i++)
        if (cells[i] != x) return 0;
    return 1;
}

/* Whether the output is unchanged from a byte on. */
static int kept_from(size_t from)
{
    for (size_t i = from; i < sizeof out; i++)
        if (out[i] != 77) return 0;
    return 1;
}

/* Whether the first cells of the work are 0 and all others unchanged. */
static int cleared(size_t count)
{
    return all(work, 0, count, 0) && all(work, count, WORK + AFTER, 777);
}

static int untouched(void)
{
    return all(table, 0, TABLE + AFTER, 777) && cleared(0) && kept_from(0);
}

/* A reply is these numbers, all of 64 bits. */
#define IS(reply, ...) is(&(reply), sizeof(reply), (uint64_t[]){__VA_ARGS__}, sizeof((uint64_t[]){__VA_ARGS__}))

static int is(const void *reply, size_t size, const uint64_t *want, size_t want_size)
{
    return size == want_size && memcmp(reply, want, size) == 0;
}

static FoldReply fold(uint64_t n, const char *words, size_t table_len, size_t work_len)
{
    lend();
    return subgroups_fold(n, (const uint8_t *)words, strlen(words), table, table_len, work, work_len);
}

static void fold_refused(const char *what, FoldReply got, uint64_t number, uint64_t place)
{
    check(what, IS(got, number, place, 0, 0, 0, 0, 0, 0, 0, 0, 0));
    check("fold: a refusal changes nothing", untouched());
}

static void test_fold(void)
{
    FoldReply got = fold(2, list, TABLE, WORK);
    check("fold: figures", IS(got, 0, 0, 2, 4, 3, 1, 2, 13, 16, 11, 1));
    check("fold: rows", memcmp(table, rows, sizeof rows) == 0);
    check("fold: absent after the rows", all(table, 8, TABLE, SUBGROUPS_ABSENT));
    check("fold: later cells kept", all(table, TABLE, TABLE + AFTER, 777));
    check("fold: work", cleared(WORK));
    lend();
    got = subgroups_fold(2, NULL, 0, table, 4, work, 8);
    check("fold: no list", IS(got, 0, 0, 1, 0, 0, 0, 0, 1, 0, 0, 0) && all(table, 0, 4, SUBGROUPS_ABSENT) && cleared(8));
    fold_refused("fold: n", fold(UINT64_C(4294967298), list, TABLE, WORK), SUBGROUPS_ALPHABET, 0);
    fold_refused("fold: bytes", fold(2, text, TABLE, WORK), SUBGROUPS_BYTES, 0);
    fold_refused("fold: byte", fold(2, "ab\na b\n", TABLE, WORK), SUBGROUPS_BYTE, 4);
    fold_refused("fold: letter", fold(1, list, TABLE, WORK), SUBGROUPS_LETTER, 2);
    fold_refused("fold: line end", fold(2, "ab\nab", TABLE, WORK), SUBGROUPS_UNENDED, 5);
    fold_refused("fold: table", fold(2, list, TABLE - 1, WORK), SUBGROUPS_TABLE, 0);
    fold_refused("fold: work", fold(2, list, TABLE, WORK - 1), SUBGROUPS_WORK, WORK);
}

static YesReply ask(uint64_t n, const char *words, const char *query, size_t table_len, size_t work_len)
{
    lend();
    return subgroups_ask(n, (const uint8_t *)words, strlen(words), (const uint8_t *)query, strlen(query),
                         table, table_len, work, work_len);
}

static void ask_refused(const char *what, YesReply got, uint64_t number, uint64_t place)
{
    check(what, IS(got, number, place, 0));
    check("ask: a refusal changes nothing", untouched());
}

static void test_ask(void)
{
    YesReply inside = ask(2, list, "aba", TABLE, WORK);
    check("ask: aba", IS(inside, 0, 0, 1));
    check("ask: table", memcmp(table, rows, sizeof rows) == 0 && all(table, 8, TABLE, SUBGROUPS_ABSENT)
                            && all(table, TABLE, TABLE + AFTER, 777));
    check("ask: work", cleared(WORK));
    YesReply outside = ask(2, list, "a", TABLE, WORK);
    check("ask: a", IS(outside, 0, 0, 0));
    YesReply empty = ask(2, list, "aA", TABLE, WORK);
    check("ask: aA", IS(empty, 0, 0, 1));
    ask_refused("ask: n", ask(0, list, "a", TABLE, WORK), SUBGROUPS_ALPHABET, 0);
    ask_refused("ask: bytes", ask(2, list, text, TABLE, WORK), SUBGROUPS_BYTES, 0);
    ask_refused("ask: byte", ask(2, list, "ab\n", TABLE, WORK), SUBGROUPS_BYTE, 2);
    ask_refused("ask: letter", ask(2, list, "abc", TABLE, WORK), SUBGROUPS_LETTER, 2);
    ask_refused("ask: line end", ask(2, "ab", "a", TABLE, WORK), SUBGROUPS_UNENDED, 2);
    ask_refused("ask: table", ask(2, list, "a", TABLE - 1, WORK), SUBGROUPS_TABLE, 0);
    ask_refused("ask: work", ask(2, list, "a", TABLE, WORK - 1), SUBGROUPS_WORK, WORK);
}

/* The rows of the list in the lent table, with one cell changed. */
static void lend_rows(size_t place, uint32_t x)
{
    lend();
    memcpy(table, rows, sizeof rows);
    table[place] = x;
}

/* The lent table is as it was handed in. */
static int table_kept(size_t place, uint32_t x)
{
    uint32_t want[8];
    memcpy(want, rows, sizeof rows);
    want[place] = x;
    return memcmp(table, want, sizeof want) == 0 && all(table, 8, TABLE + AFTER, 777);
}

static void test_check(void)
{
    lend_rows(0, 1);
    CheckReply got = subgroups_check(2, 2, table, 8);
    check("check: counts", IS(got, 0, 0, 4, 3, 1, 2));
    uint32_t none[2] = {SUBGROUPS_ABSENT, SUBGROUPS_ABSENT};
    got = subgroups_check(1, 1, none, 2);
    check("check: infinite", IS(got, 0, 0, 0, 0, 0, 0));
    got = subgroups_check(27, 2, table, 8);
    check("check: n", IS(got, SUBGROUPS_ALPHABET, 0, 0, 0, 0, 0));
    got = subgroups_check(2, 0, table, 8);
    check("check: no points", IS(got, SUBGROUPS_TABLE, 0, 0, 0, 0, 0));
    got = subgroups_check(2, 1048578, table, 8);
    check("check: points", IS(got, SUBGROUPS_TABLE, 0, 0, 0, 0, 0));
    got = subgroups_check(2, 2, table, 7);
    check("check: table", IS(got, SUBGROUPS_TABLE, 0, 0, 0, 0, 0));
    lend_rows(5, 1);
    got = subgroups_check(2, 2, table, 8);
    check("check: canonical", IS(got, SUBGROUPS_CANONICAL, 0, 0, 0, 0, 0));
    check("check: table kept", table_kept(5, 1));
}

static YesReply member(uint64_t n, uint64_t points, size_t table_len, const char *query, size_t work_len)
{
    return subgroups_member(n, points, table, table_len, (const uint8_t *)query, strlen(query), work, work_len);
}

static void member_refused(const char *what, YesReply got, uint64_t number, uint64_t place)
{
    check(what, IS(got, number, place, 0));
    check("member: a refusal changes nothing", cleared(0));
}

static void test_member(void)
{
    lend_rows(0, 1);
    YesReply got = member(2, 2, 8, "aba", 3);
    check("member: aba", IS(got, 0, 0, 1));
    check("member: work", cleared(3));
    lend_rows(0, 1);
    got = member(2, 2, 8, "a", 1);
    check("member: a", IS(got, 0, 0, 0));
    check("member: work outside", cleared(1));
    lend_rows(0, 1);
    got = subgroups_member(2, 2, table, 8, NULL, 0, NULL, 0);
    check("member: no query", IS(got, 0, 0, 1) && cleared(0));
    member_refused("member: n", member(27, 2, 8, "a", 1), SUBGROUPS_ALPHABET, 0);
    member_refused("member: bytes", member(2, 2, 8, text, 1), SUBGROUPS_BYTES, 0);
    member_refused("member: byte", member(2, 2, 8, "a\n", 2), SUBGROUPS_BYTE, 1);
    member_refused("member: letter", member(2, 2, 8, "aC", 2), SUBGROUPS_LETTER, 1);
    member_refused("member: table", member(2, 2, 7, "a", 0), SUBGROUPS_TABLE, 0);
    member_refused("member: work", member(2, 2, 8, "aba", 2), SUBGROUPS_WORK, 3);
    check("member: table kept", table_kept(0, 1));
    lend_rows(7, 0);
    member_refused("member: canonical", member(2, 2, 8, "a", 1), SUBGROUPS_CANONICAL, 6);
    check("member: faulty table kept", table_kept(7, 0));
}

static void test_equal(void)
{
    uint32_t other[8];
    memcpy(other, rows, sizeof rows);
    lend_rows(0, 1);
    YesReply got = subgroups_equal(2, 2, table, TABLE, 2, 2, other, 8);
    check("equal: the same", IS(got, 0, 0, 1));
    uint32_t loop[4] = {SUBGROUPS_ABSENT, SUBGROUPS_ABSENT, 0, 0};
    got = subgroups_equal(2, 2, table, 8, 2, 1, loop, 4);
    check("equal: another", IS(got, 0, 0, 0));
    got = subgroups_equal(0, 2, table, 8, 0, 2, other, 8);
    check("equal: n", IS(got, SUBGROUPS_ALPHABET, 0, 0));
    got = subgroups_equal(2, 2, table, 8, 1, 2, other, 8);
    check("equal: another n", IS(got, SUBGROUPS_ALPHABET, 0, 0));
    got = subgroups_equal(2, 2, table, 7, 2, 2, other, 8);
    check("equal: first table", IS(got, SUBGROUPS_TABLE, 0, 0));
    got = subgroups_equal(2, 2, table, 8, 2, 0, other, 8);
    check("equal: second table", IS(got, SUBGROUPS_TABLE, 0, 0));
    other[7] = 0;
    got = subgroups_equal(2, 2, table, 8, 2, 2, other, 8);
    check("equal: second canonical", IS(got, SUBGROUPS_CANONICAL, 6, 0));
    lend_rows(5, 1);
    got = subgroups_equal(2, 2, table, 8, 2, 2, other, 8);
    check("equal: first canonical", IS(got, SUBGROUPS_CANONICAL, 0, 0));
    check("equal: table kept", table_kept(5, 1));
}

static void normal_refused(const char *what, YesReply got, uint64_t number, uint64_t place)
{
    check(what, IS(got, number, place, 0));
    check("normal: a refusal changes nothing", cleared(0));
}

static void test_normal(void)
{
    lend_rows(0, 1);
    YesReply got = subgroups_normal(2, 2, table, 8, work, 8);
    check("normal: yes", IS(got, 0, 0, 1));
    check("normal: work", cleared(8));
    lend_rows(0, 1);
    got = subgroups_normal(2, 2, table, TABLE, work, WORK);
    check("normal: with room", IS(got, 0, 0, 1) && cleared(8));
    uint32_t a = SUBGROUPS_ABSENT, other[8] = {1, a, a, a, a, 0, 1, 1}; /* of abA */
    lend();
    got = subgroups_normal(2, 2, other, 8, work, 8);
    check("normal: no", IS(got, 0, 0, 0));
    check("normal: work of another", cleared(8));
    lend_rows(0, 1);
    normal_refused("normal: n", subgroups_normal(27, 2, table, 8, work, 8), SUBGROUPS_ALPHABET, 0);
    normal_refused("normal: table", subgroups_normal(2, 2, table, 7, work, 0), SUBGROUPS_TABLE, 0);
    normal_refused("normal: work", subgroups_normal(2, 2, table, 8, work, 7), SUBGROUPS_WORK, 8);
    check("normal: table kept", table_kept(0, 1));
    lend_rows(7, 0);
    normal_refused("normal: canonical", subgroups_normal(2, 2, table, 8, work, 8), SUBGROUPS_CANONICAL, 6);
    check("normal: faulty table kept", table_kept(7, 0));
}

/* Whether the first numbers are these and all others unchanged. */
static int written(const int32_t *want, size_t count)
{
    for (size_t i = 0; i < NUMBERS + AFTER; i++)
        if (numbers[i] != (i < count ? want[i] : -777)) return 0;
    return 1;
}

static ExpressReply express(uint64_t n, uint64_t points, size_t table_len, const char *query, size_t work_len,
                            size_t out_len)
{
    return subgroups_express(n, points, table, table_len, (const uint8_t *)query, strlen(query), work, work_len,
                             numbers, out_len);
}

static void express_refused(const char *what, ExpressReply got, uint64_t number, uint64_t place, size_t cells)
{
    check(what, IS(got, number, place, 0, 0));
    check("express: what a refusal leaves", cleared(cells) && written(NULL, 0));
}

static void test_express(void)
{
    static const int32_t baba[4] = {1, -2, 3, 2};
    lend_rows(0, 1);
    ExpressReply got = express(2, 2, 8, "bAba", 4, 4);
    check("express: bAba", IS(got, 0, 0, 1, 4));
    check("express: numbers", written(baba, 4) && cleared(4));
    lend_rows(0, 1);
    got = express(2, 2, TABLE, "bAbBba", WORK, NUMBERS);
    check("express: unreduced", IS(got, 0, 0, 1, 4) && written(baba, 4) && cleared(6));
    lend_rows(0, 1);
    got = express(2, 2, 8, "a", 1, 0);
    check("express: a", IS(got, 0, 0, 0, 0) && written(NULL, 0) && cleared(1));
    lend_rows(0, 1);
    got = express(2, 2, 8, "aA", 2, 0);
    check("express: aA", IS(got, 0, 0, 1, 0) && written(NULL, 0) && cleared(2));
    lend_rows(0, 1);
    express_refused("express: n", express(0, 2, 8, "a", 1, 4), SUBGROUPS_ALPHABET, 0, 0);
    express_refused("express: bytes", express(2, 2, 8, text, 1, 4), SUBGROUPS_BYTES, 0, 0);
    express_refused("express: byte", express(2, 2, 8, "a\n", 2, 4), SUBGROUPS_BYTE, 1, 0);
    express_refused("express: letter", express(2, 2, 8, "aC", 2, 4), SUBGROUPS_LETTER, 1, 0);
    express_refused("express: table", express(2, 2, 7, "a", 0, 4), SUBGROUPS_TABLE, 0, 0);
    express_refused("express: work", express(2, 2, 8, "bAba", 3, 4), SUBGROUPS_WORK, 4, 0);
    express_refused("express: output", express(2, 2, 8, "bAba", 4, 3), SUBGROUPS_OUTPUT, 4, 4);
    check("express: table kept", table_kept(0, 1));
    lend_rows(7, 0);
    express_refused("express: canonical", express(2, 2, 8, "bAba", 4, 0), SUBGROUPS_CANONICAL, 6, 0);
    check("express: faulty table kept", table_kept(7, 0));
}

static WrittenReply basis(uint64_t n, uint64_t points, size_t table_len, size_t work_len, size_t out_len)
{
    return subgroups_basis(n, points, table, table_len, work, work_len, out, out_len);
}

static void basis_refused(const char *what, WrittenReply got, uint64_t number, uint64_t place, size_t cells)
{
    check(what, IS(got, number, place, 0, 0));
    check("basis: what a refusal leaves", cleared(cells) && kept_from(0));
}

static void test_basis(void)
{
    size_t length = strlen(basis_text);
    lend_rows(0, 1);
    WrittenReply got = basis(2, 2, 8, 8, length);
    check("basis: words and bytes", IS(got, 0, 0, 3, length));
    check("basis: text", memcmp(out, basis_text, length) == 0 && kept_from(length));
    check("basis: work", cleared(8));
    lend_rows(0, 1);
    got = basis(2, 2, TABLE, WORK, BYTES);
    check("basis: with room", IS(got, 0, 0, 3, length) && kept_from(length) && cleared(8));
    lend_rows(0, 1);
    basis_refused("basis: n", basis(0, 2, 8, 8, BYTES), SUBGROUPS_ALPHABET, 0, 0);
    basis_refused("basis: table", basis(2, 2, 7, 8, BYTES), SUBGROUPS_TABLE, 0, 0);
    basis_refused("basis: work", basis(2, 2, 8, 7, BYTES), SUBGROUPS_WORK, 8, 0);
    basis_refused("basis: output", basis(2, 2, 8, 8, length - 1), SUBGROUPS_OUTPUT, length, 8);
    check("basis: table kept", table_kept(0, 1));
    lend_rows(7, 0);
    basis_refused("basis: canonical", basis(2, 2, 8, 8, 0), SUBGROUPS_CANONICAL, 6, 0);
    check("basis: faulty table kept", table_kept(7, 0));
}

static WrittenReply save(uint64_t n, uint64_t points, size_t table_len, size_t out_len)
{
    return subgroups_save_table(n, points, table, table_len, out, out_len);
}

static void save_refused(const char *what, WrittenReply got, uint64_t number, uint64_t place)
{
    check(what, IS(got, number, place, 0, 0));
    check("save: a refusal changes nothing", kept_from(0));
}

static void test_save_table(void)
{
    static const uint8_t file[11] = {1, 2, 2, 2, 2, 1, 1, 1, 1, 2, 2};
    lend_rows(0, 1);
    WrittenReply got = save(2, 2, 8, 11);
    check("save: bytes", IS(got, 0, 0, 0, 11));
    check("save: file", memcmp(out, file, sizeof file) == 0 && kept_from(11));
    lend_rows(0, 1);
    got = save(2, 2, TABLE, BYTES);
    check("save: with room", IS(got, 0, 0, 0, 11) && kept_from(11));
    lend_rows(0, 1);
    save_refused("save: n", save(27, 2, 8, BYTES), SUBGROUPS_ALPHABET, 0);
    save_refused("save: table", save(2, 3, 8, BYTES), SUBGROUPS_TABLE, 0);
    save_refused("save: output", save(2, 2, 8, 10), SUBGROUPS_OUTPUT, 11);
    check("save: table kept", table_kept(0, 1));
    lend_rows(7, 0);
    save_refused("save: canonical", save(2, 2, 8, 0), SUBGROUPS_CANONICAL, 6);
    check("save: faulty table kept", table_kept(7, 0));
}

static WrittenReply save_list(uint64_t n, const char *words, size_t out_len)
{
    return subgroups_save_list(n, (const uint8_t *)words, strlen(words), out, out_len);
}

static void test_save_list(void)
{
    static const uint8_t file[10] = {2, 2, 3, 2, 0, 3, 0, 2, 2, 1};
    lend();
    WrittenReply got = save_list(2, "aB\n\nbA\n", 10);
    check("save list: bytes", IS(got, 0, 0, 0, 10));
    check("save list: file", memcmp(out, file, sizeof file) == 0 && kept_from(10));
    lend();
    got = save_list(2, "", BYTES);
    check("save list: no words", IS(got, 0, 0, 0, 3) && memcmp(out, "\2\2\0", 3) == 0 && kept_from(3));
    lend();
    save_refused("save list: n", save_list(0, "a\n", BYTES), SUBGROUPS_ALPHABET, 0);
    save_refused("save list: bytes", save_list(2, text, BYTES), SUBGROUPS_BYTES, 0);
    save_refused("save list: byte", save_list(2, "ab\na b\n", BYTES), SUBGROUPS_BYTE, 4);
    save_refused("save list: letter", save_list(2, "ab\nac\n", BYTES), SUBGROUPS_LETTER, 4);
    save_refused("save list: line end", save_list(2, "ab\nab", BYTES), SUBGROUPS_UNENDED, 5);
    save_refused("save list: output", save_list(2, "aB\n\nbA\n", 9), SUBGROUPS_OUTPUT, 10);
}

static LoadReply load(const uint8_t *file, size_t file_len, size_t table_len, size_t text_len)
{
    lend();
    return subgroups_load(file, file_len, table, table_len, out, text_len);
}

static void load_refused(const char *what, LoadReply got, uint64_t number, uint64_t place)
{
    check(what, IS(got, number, place, 0, 0, 0, 0, 0));
    check("load: a refusal changes nothing", untouched());
}

/* A file of these bytes, and its length. */
#define BYTES_OF(...) (const uint8_t[]){__VA_ARGS__}, sizeof((const uint8_t[]){__VA_ARGS__})

static void test_load(void)
{
    LoadReply got = load(BYTES_OF(1, 2, 2, 2, 2, 1, 1, 1, 1, 2, 2), 8, 0);
    check("load: a table", IS(got, 0, 0, 1, 2, 2, 0, 0));
    check("load: rows", memcmp(table, rows, sizeof rows) == 0 && all(table, 8, TABLE + AFTER, 777));
    check("load: no text", cleared(0) && kept_from(0));
    got = load(BYTES_OF(2, 2, 3, 2, 0, 3, 0, 2, 2, 1), 0, 7);
    check("load: a list", IS(got, 0, 0, 2, 2, 0, 3, 7));
    check("load: text", memcmp(out, "aB\n\nbA\n", 7) == 0 && kept_from(7));
    check("load: no table", all(table, 0, TABLE + AFTER, 777));
    load_refused("load: no kind", load(BYTES_OF(129), TABLE, BYTES), 10, 0);
    load_refused("load: kind", load(BYTES_OF(3, 2, 0), TABLE, BYTES), 11, 0);
    load_refused("load: no n", load(BYTES_OF(2), TABLE, BYTES), 10, 1);
    load_refused("load: n", load(BYTES_OF(2, 27, 0), TABLE, BYTES), SUBGROUPS_ALPHABET, 0);
    load_refused("load: no points", load(BYTES_OF(1, 2, 0), TABLE, BYTES), SUBGROUPS_TABLE, 0);
    load_refused("load: short table", load(BYTES_OF(1, 2, 2, 2, 2, 1, 1, 1, 1, 2, 2), 7, BYTES), SUBGROUPS_TABLE, 0);
    load_refused("load: cell", load(BYTES_OF(1, 1, 1, 0, 128, 0), TABLE, BYTES), 10, 4);
    load_refused("load: letter", load(BYTES_OF(2, 2, 1, 2, 0, 4), TABLE, BYTES), SUBGROUPS_LETTER, 5);
    load_refused("load: four billion words", load(BYTES_OF(2, 2, 255, 255, 255, 255, 15, 0), TABLE, BYTES), 10, 8);
    load_refused("load: after the end", load(BYTES_OF(2, 2, 1, 0, 7, 7), TABLE, BYTES), 12, 4);
    load_refused("load: text", load(BYTES_OF(2, 2, 3, 2, 0, 3, 0, 2, 2, 1), TABLE, 6), SUBGROUPS_OUTPUT, 7);
    got = load(BYTES_OF(1, 2, 2, 2, 2, 1, 1, 1, 1, 2, 1), TABLE, BYTES);
    check("load: canonical", IS(got, SUBGROUPS_CANONICAL, 6, 0, 0, 0, 0, 0));
    check("load: a faulty table is absent", all(table, 0, 8, SUBGROUPS_ABSENT) && all(table, 8, TABLE + AFTER, 777));
    check("load: its text kept", kept_from(0));
}

/* A list file of one word whose text has so many bytes. */
static void test_long_load(void)
{
    static uint8_t file[7 + LONG], long_text[LONG];
    memcpy(file, "\2\1\1\377\377\77", 6); /* 1,048,575 letters */
    LoadReply got = subgroups_load(file, 6 + 1048575, table, 0, long_text, LONG);
    check("load: the longest text", IS(got, 0, 0, 2, 1, 0, 1, 1048576));
    check("load: its letters", long_text[0] == 'a' && long_text[1048575] == 10 && long_text[1048576] == 0);
    memcpy(file, "\2\1\1\200\200\300", 6);
    file[6] = 0;
    got = subgroups_load(file, 6 + 1048576, table, 0, long_text, LONG);
    check("load: a number too long", IS(got, 10, 3, 0, 0, 0, 0, 0));
    memcpy(file, "\2\1\1\200\200\100", 6); /* 1,048,576 letters */
    got = subgroups_load(file, 6 + 1048576, table, 0, long_text, LONG);
    check("load: a text too long", IS(got, SUBGROUPS_BYTES, 0, 0, 0, 0, 0, 0));
}

static PartReply shorter(uint64_t n, const char *first, const char *second)
{
    return subgroups_shorter(n, (const uint8_t *)first, strlen(first), (const uint8_t *)second, strlen(second));
}

static void test_shorter(void)
{
    PartReply got = shorter(2, "ab\n\n", "aba\n");
    check("shorter: the first", IS(got, 1, 4));
    got = shorter(2, "aba\n", "ab\n\n");
    check("shorter: the second", IS(got, 2, 4));
    got = shorter(2, "ab\n", "a\nb\n");
    check("shorter: a tie", IS(got, 1, 3));
    got = shorter(2, "c\n", "abab\n");
    check("shorter: a bad first", IS(got, 2, 5));
    got = shorter(2, "abab\n", "a");
    check("shorter: a bad second", IS(got, 1, 5));
    got = shorter(2, "c\n", "a");
    check("shorter: two bad ones", IS(got, 0, 0));
    got = shorter(27, "a\n", "");
    check("shorter: n", IS(got, 0, 0));
}

int main(void)
{
    memset(text, 'a', LONG);
    test_fold();
    test_ask();
    test_check();
    test_member();
    test_equal();
    test_normal();
    test_express();
    test_basis();
    test_save_table();
    test_save_list();
    test_load();
    test_long_load();
    test_shorter();
    printf("%d passed, %d failed\n", passed, failed);
    return failed != 0;
}
