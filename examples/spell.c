/* Prints the one spelling of the sheet on standard input by one call, or the line of its error, as spell does. */
#include "yadzvego.h"
#include <stdio.h>

int main(void)
{
    static char text[YADZVEGO_SHEET + 1]; /* one byte more than a sheet may have: a longer text is refused as a whole */
    static char out[YADZVEGO_SHEET];
    size_t length = fread(text, 1, sizeof text, stdin);
    YadzvegoSpellResult result = yadzvego_spell_text(text, length, out, YADZVEGO_SHEET);
    if (result.number == 0)
        fwrite(out, 1, result.length, stdout);
    else
        printf("error=%zu\n", result.number);
    return 0;
}
