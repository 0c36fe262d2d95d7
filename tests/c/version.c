/* A program over two objects that include the header, of which this one calls the library and tests/c/included.c does not. */
#include <stdio.h>

#include "citations.h"

int main(void)
{
    uint32_t answer[CITATIONS_SIZE_ANSWER] = {CITATIONS_NO_ANSWER};
    const uint8_t text[] = {'[', '@', 'a', ']'};

    citations_size(text, sizeof text, answer, CITATIONS_SIZE_ANSWER);
    printf("%u %u\n", (unsigned)answer[CITATIONS_SIZE_NUMBER], (unsigned)answer[CITATIONS_SIZE_RECORDS]);
    return 0;
}
