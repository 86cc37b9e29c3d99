#include <stdio.h>
#include "subgroups.h"

int main(void)
{
    uint32_t table[5 * 4], work[5 * 8]; /* for a list of 4 letters over 2 generators */
    YesReply r = subgroups_ask(2, (const uint8_t *)"ab\nbA\n", 6, (const uint8_t *)"abbA", 4, table, 20, work, 40);
    if (r.number != 0) {
        printf("%s %d\n", subgroups_words(r.number), (int)r.place);
        return 1;
    }
    printf("%s\n", r.yes ? "yes" : "no");
    return 0;
}
