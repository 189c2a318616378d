/* Settles the sheet on standard input by one call, and prints what the program settle prints for it. */
#include "yadzvego.h"
#include <stdio.h>

int main(void)
{
    static char text[YADZVEGO_SHEET + 1]; /* one byte more than a sheet may have: a longer text is refused as a whole */
    static char slot[YADZVEGO_SLOT];
    static double area[YADZVEGO_AREA];
    size_t length = fread(text, 1, sizeof text, stdin);
    size_t number = yadzvego_settle_text(text, length, area, YADZVEGO_AREA, slot, YADZVEGO_SLOT);
    if (number != 0) {
        printf("refusal=%zu\n", number);
        return 1;
    }
    fputs(slot, stdout);
    return 0;
}
