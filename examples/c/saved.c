/* Saves a table and a list, loads both back, and expresses words in the basis of what was loaded.
 *
 *   cc -std=c99 -Iinclude -o saved examples/c/saved.c target/staticlib/libsubgroups.a && ./saved
 */
#include <inttypes.h>
#include <stdio.h>
#include <string.h>

#include "subgroups.h"

enum { N = 2, LETTERS = 16, ROWS = LETTERS + 1, FILE_BYTES = 200 };

static const char list[] = "aaB\nbAba\nabA\naaaaaa\n";
static uint32_t table[ROWS * 2 * N], work[8 * ROWS];
static uint32_t loaded[FILE_BYTES]; /* as many cells as the file has bytes are enough */
static uint8_t file[FILE_BYTES], text[FILE_BYTES];
static int32_t numbers[100];

/* Prints a refusal, if there is one, and says whether there is. */
static int refused(const char *what, uint64_t number, uint64_t place)
{
    if (number != 0) printf("%s: %s %" PRIu64 "\n", what, subgroups_words(number), place);
    return number != 0;
}

static void express(uint64_t n, uint64_t points, const char *word)
{
    ExpressReply r = subgroups_express(n, points, loaded, FILE_BYTES, (const uint8_t *)word, strlen(word),
                                       work, sizeof work / sizeof *work, numbers, 100);
    if (refused(word, r.number, r.place)) return;
    printf("%s %s", word, r.yes ? "yes" : "no");
    for (size_t i = 0; i < r.count; i++) printf(" %" PRId32, numbers[i]);
    printf("\n");
}

static int table_saved_and_loaded(void)
{
    FoldReply f = subgroups_fold(N, (const uint8_t *)list, strlen(list), table, sizeof table / sizeof *table,
                                 work, sizeof work / sizeof *work);
    if (refused("fold", f.number, f.place)) return 1;
    WrittenReply s = subgroups_save_table(N, f.points, table, sizeof table / sizeof *table, file, FILE_BYTES);
    if (refused("save", s.number, s.place)) return 1;
    LoadReply l = subgroups_load(file, s.bytes, loaded, FILE_BYTES, text, FILE_BYTES);
    if (refused("load", l.number, l.place)) return 1;
    printf("table of %" PRIu64 " points in %" PRIu64 " bytes\n", l.points, s.bytes);
    YesReply normal = subgroups_normal(l.n, l.points, loaded, FILE_BYTES, work, sizeof work / sizeof *work);
    if (refused("normal", normal.number, normal.place)) return 1;
    printf("normal %s\n", normal.yes ? "yes" : "no");
    express(l.n, l.points, "aba");
    express(l.n, l.points, "bAba");
    express(l.n, l.points, "a");
    return 0;
}

static int list_saved_and_loaded(void)
{
    WrittenReply s = subgroups_save_list(N, (const uint8_t *)list, strlen(list), file, FILE_BYTES);
    if (refused("save", s.number, s.place)) return 1;
    LoadReply l = subgroups_load(file, s.bytes, loaded, FILE_BYTES, text, FILE_BYTES);
    if (refused("load", l.number, l.place)) return 1;
    printf("list of %" PRIu64 " words in %" PRIu64 " bytes\n%.*s", l.words, s.bytes, (int)l.bytes, (const char *)text);
    l = subgroups_load(file, s.bytes - 1, loaded, FILE_BYTES, text, FILE_BYTES);
    refused("load of a cut file", l.number, l.place);
    return 0;
}

int main(void)
{
    return table_saved_and_loaded() || list_saved_and_loaded();
}
