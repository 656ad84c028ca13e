/* Prints the film sheet of the order on standard input. */
#include "thumb_layout.h"
#include <stdio.h>

/* No byte past the first 70,000 changes a sheet: `first-bytes-film` in crates/film_sheet/proofs/FirstBytes.antt. */
static uint8_t order[70000];

int main(void)
{
    size_t length = fread(order, 1, sizeof order, stdin);
    if (ferror(stdin)) {
        perror("film");
        return 2;
    }
    uint8_t sheet[TL_SHEET] = {0};
    size_t text = (size_t)tl_film(order, length, sheet);
    if (fwrite(sheet, 1, text, stdout) != text || fclose(stdout) != 0) {
        perror("film");
        return 2;
    }
    return 0;
}
