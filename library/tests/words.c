/*
 * Writes the words of each refusal with the value 3, as library/tests/refusals.txt has them. A number
 * of no refusal has no words of its own.
 */
#include <stdio.h>
#include <string.h>

#include <placelist.h>

int main(void)
{
    for (int number = 1; number < 256; number++) {
        char words[PLACELIST_EXPLAIN_BYTES];
        placelist_explain((uint8_t)number, 3, words, sizeof words);
        if (strncmp(words, "refusal ", 8) != 0) {
            printf("%d %s\n", number, words);
        }
    }
    return 0;
}
