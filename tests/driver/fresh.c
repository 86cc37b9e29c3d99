/* Every function on lists that look random, with buffers from malloc that are as long as needed and never written
 * before: for a tool that watches memory. What is asked: each word of a list is a member of its subgroup and is
 * expressed, the basis folds back to the same table, basis word k is expressed as k, and what is saved loads back. */

#include <stdio.h>
#include <stdlib.h>
#include <string.h>

#include "subgroups.h"

enum { LISTS = 400, MOST_WORDS = 8, MOST_LETTERS = 12, MOST = MOST_WORDS * (MOST_LETTERS + 1) };

static uint64_t state = 1;
static int passed, failed;

static uint64_t below(uint64_t most)
{
    state = state * UINT64_C(6364136223846793005) + UINT64_C(1442695040888963407);
    return (state >> 33) % most;
}

static void check(const char *what, int holds)
{
    if (holds) {
        passed++;
    } else {
        failed++;
        printf("failed: %s\n", what);
    }
}

/* Memory that was never written; of length 0 too it is a place of its own. */
static void *fresh(size_t count, size_t size)
{
    void *memory = malloc(count * size + (count == 0));
    if (memory == NULL) exit(2);
    return memory;
}

static uint8_t *copy(const uint8_t *bytes, size_t length)
{
    return memcpy(fresh(length, 1), bytes, length);
}

/* A folded list: the rows alone are kept. */
typedef struct {
    uint64_t n, points;
    uint32_t *rows;
    size_t cells;
} Folded;

static Folded fold(uint64_t n, const uint8_t *list, size_t length)
{
    size_t rows = 1;
    for (size_t i = 0; i < length; i++) rows += list[i] != '\n';
    uint32_t *table = fresh(rows * 2 * n, 4), *work = fresh(rows * 8, 4);
    FoldReply r = subgroups_fold(n, list, length, table, rows * 2 * n, work, rows * 8);
    check("fold", r.number == 0);
    Folded f = {n, r.points, NULL, r.points * 2 * n};
    f.rows = memcpy(fresh(f.cells, 4), table, f.cells * 4);
    free(table);
    free(work);
    return f;
}

/* Expresses a word, and gives its only number; 0 if it has none or several. */
static int32_t expressed(Folded f, const uint8_t *word, size_t length)
{
    uint32_t *work = fresh(length, 4);
    ExpressReply r = subgroups_express(f.n, f.points, f.rows, f.cells, word, length, work, length, NULL, 0);
    size_t count = r.number == SUBGROUPS_OUTPUT ? r.place : 0;
    int32_t *out = fresh(count, 4);
    r = subgroups_express(f.n, f.points, f.rows, f.cells, word, length, work, length, out, count);
    check("express", r.number == 0 && r.yes == 1 && r.count == count);
    int32_t number = count == 1 ? out[0] : 0;
    for (size_t i = 0; i < count; i++) check("express: no number is 0", out[i] != 0);
    free(work);
    free(out);
    return number;
}

static void words_are_members(Folded f, const uint8_t *list, size_t length)
{
    for (size_t start = 0, end; start < length; start = end + 1) {
        for (end = start; list[end] != '\n'; end++) {}
        uint8_t *word = copy(list + start, end - start);
        uint32_t *work = fresh(end - start, 4);
        YesReply r = subgroups_member(f.n, f.points, f.rows, f.cells, word, end - start, work, end - start);
        check("member", r.number == 0 && r.yes == 1);
        expressed(f, word, end - start);
        free(word);
        free(work);
    }
}

static void basis_folds_back(Folded f)
{
    uint32_t *work = fresh(4 * f.points, 4);
    WrittenReply r = subgroups_basis(f.n, f.points, f.rows, f.cells, work, 4 * f.points, NULL, 0);
    size_t length = r.number == SUBGROUPS_OUTPUT ? r.place : 0;
    uint8_t *out = fresh(length, 1);
    r = subgroups_basis(f.n, f.points, f.rows, f.cells, work, 4 * f.points, out, length);
    check("basis", r.number == 0 && r.bytes == length);
    int32_t k = 0;
    for (size_t start = 0, end; start < length; start = end + 1) {
        for (end = start; out[end] != '\n'; end++) {}
        check("express: basis word k", expressed(f, out + start, end - start) == ++k);
    }
    Folded back = fold(f.n, out, length);
    YesReply same = subgroups_equal(f.n, f.points, f.rows, f.cells, back.n, back.points, back.rows, back.cells);
    check("equal", same.number == 0 && same.yes == 1);
    CheckReply counts = subgroups_check(back.n, back.points, back.rows, back.cells);
    check("check", counts.number == 0 && counts.rank == r.words);
    free(back.rows);
    free(work);
    free(out);
}

static void normal_is_answered(Folded f)
{
    uint32_t *work = fresh(4 * f.points, 4);
    YesReply r = subgroups_normal(f.n, f.points, f.rows, f.cells, work, 4 * f.points);
    check("normal", r.number == 0 && r.yes <= 1);
    free(work);
}

static void table_loads_back(Folded f)
{
    WrittenReply r = subgroups_save_table(f.n, f.points, f.rows, f.cells, NULL, 0);
    size_t length = r.place;
    uint8_t *out = fresh(length, 1);
    check("save: length", r.number == SUBGROUPS_OUTPUT && length >= 3 + f.cells);
    r = subgroups_save_table(f.n, f.points, f.rows, f.cells, out, length);
    check("save", r.number == 0 && r.bytes == length && out[0] == 1 && out[1] == f.n);
    uint32_t *cells = fresh(f.cells, 4);
    LoadReply l = subgroups_load(out, length, cells, f.cells, NULL, 0);
    check("load", l.number == 0 && l.kind == 1 && l.n == f.n && l.points == f.points);
    check("load: the same cells", memcmp(cells, f.rows, f.cells * 4) == 0);
    free(cells);
    free(out);
}

static void list_loads_back(uint64_t n, const uint8_t *list, size_t length)
{
    WrittenReply r = subgroups_save_list(n, list, length, NULL, 0);
    check("save_list: length", r.number == SUBGROUPS_OUTPUT);
    uint8_t *file = fresh(r.place, 1), *text = fresh(length, 1);
    r = subgroups_save_list(n, list, length, file, r.place);
    check("save_list", r.number == 0);
    LoadReply l = subgroups_load(file, r.bytes, NULL, 0, text, length);
    check("load of a list", l.number == 0 && l.kind == 2 && l.n == n && l.bytes == length);
    check("load of a list: the same text", memcmp(text, list, length) == 0);
    free(file);
    free(text);
}

int main(void)
{
    for (int i = 0; i < LISTS; i++) {
        uint8_t text[MOST];
        size_t length = 0;
        uint64_t n = 1 + below(4);
        for (uint64_t words = below(MOST_WORDS + 1); words > 0; words--) {
            for (uint64_t letters = below(MOST_LETTERS + 1); letters > 0; letters--)
                text[length++] = (uint8_t)((below(2) ? 'a' : 'A') + below(n));
            text[length++] = '\n';
        }
        uint8_t *list = copy(text, length);
        Folded f = fold(n, list, length);
        words_are_members(f, list, length);
        basis_folds_back(f);
        normal_is_answered(f);
        table_loads_back(f);
        list_loads_back(n, list, length);
        check("shorter", subgroups_shorter(n, list, length, list, length).which == 1);
        free(f.rows);
        free(list);
    }
    printf("%d passed, %d failed\n", passed, failed);
    return failed != 0;
}
