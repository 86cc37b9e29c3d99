/* Folds a list, asks queries of its table, prints the basis and saves the table.
 *
 *   cc -std=c99 -Iinclude -o worked examples/c/worked.c target/staticlib/libsubgroups.a && ./worked
 */
#include <inttypes.h>
#include <stdio.h>
#include <string.h>

#include "subgroups.h"

enum { N = 2, LETTERS = 16, ROWS = LETTERS + 1 };

static const char list[] = "aaB\nbAba\nabA\naaaaaa\n";
static uint32_t table[ROWS * 2 * N], work[8 * ROWS];
static uint8_t out[1000];

/* Prints a refusal, if there is one, and says whether there is. */
static int refused(const char *what, uint64_t number, uint64_t place)
{
    if (number != 0) printf("%s: %s %" PRIu64 "\n", what, subgroups_words(number), place);
    return number != 0;
}

static void query(uint64_t points, const char *word)
{
    YesReply r = subgroups_member(N, points, table, sizeof table / sizeof *table,
                                  (const uint8_t *)word, strlen(word), work, sizeof work / sizeof *work);
    if (!refused(word, r.number, r.place)) printf("%s %s\n", word, r.yes ? "yes" : "no");
}

int main(void)
{
    FoldReply f = subgroups_fold(N, (const uint8_t *)list, strlen(list), table, sizeof table / sizeof *table,
                                 work, sizeof work / sizeof *work);
    if (refused("fold", f.number, f.place)) return 1;
    printf("points %" PRIu64 "\nrank %" PRIu64 "\n", f.points, f.rank);
    if (f.finite)
        printf("index %" PRIu64 "\n", f.index);
    else
        printf("index infinite\n");

    WrittenReply b = subgroups_basis(N, f.points, table, sizeof table / sizeof *table,
                                     work, sizeof work / sizeof *work, out, sizeof out);
    if (refused("basis", b.number, b.place)) return 1;
    printf("basis of %" PRIu64 " words\n%.*s", b.words, (int)b.bytes, (const char *)out);

    query(f.points, "aba");
    query(f.points, "a");
    query(f.points, "aA");
    query(f.points, "ac");

    WrittenReply s = subgroups_save_table(N, f.points, table, sizeof table / sizeof *table, out, sizeof out);
    if (refused("save", s.number, s.place)) return 1;
    printf("file");
    for (size_t i = 0; i < s.bytes; i++) printf(" %02x", (unsigned)out[i]);
    printf("\n");
    return 0;
}
