/* Prices the run that is its second argument by the book whose file is its first, as the saw's controller does. */
#include <stdio.h>
#include <string.h>

#include "waichuro.h"

/* One byte more than a book may have, so that a longer one is refused and not cut short. */
static uint8_t book[8193];

int main(int count, char **words) {
    if (count != 3) {
        fprintf(stderr, "usage: saw BOOK RUN\n");
        return 2;
    }
    FILE *file = fopen(words[1], "rb");
    size_t length = 0;
    if (file != NULL) {
        length = fread(book, 1, sizeof book, file);
        fclose(file);
    }
    uint64_t answer = waichuro_price(book, length, (const uint8_t *)words[2], strlen(words[2]));
    if (answer >> 32 != 0) {
        printf("refused %u\n", (unsigned)(answer >> 32));
        return 1;
    }
    printf("time %u\n", (unsigned)answer);
    return 0;
}
