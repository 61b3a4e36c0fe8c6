/* Prints a sheet's rows on pages, for the clipboard: of a file, or of standard input.
 *
 * Exit status: 0 the pages were printed; 1 the sheet was refused; 2 it could not be read, or the pages not be written.
 *
 *     gcc -Iinclude -o pages examples/pages.c target/staticlib/libmatcher.a
 *     ./pages examples/shift.sheet
 */
#include <stdio.h>

#include "matcher.h"

/* A sheet has up to 16,384 bytes; one byte more tells that it is too long. */
static uint8_t sheet[16384 + 1];
/* What takes the pages of every sheet: no call is refused for this buffer. */
static uint8_t pages[MATCHER_PAGES_BYTES];

/* Why there are no pages, for those refusals that whoever fills in a sheet can mend. */
static const char *advice(uint32_t number, uint32_t place)
{
    switch (number) {
    case 7:
        return "pick a node";
    case 10:
    case 11:
    case 12:
        return "draw less, or ask over fewer regions";
    case 14:
        return place == 0 ? "the sheet is too long" : "look at that line of the sheet";
    case 15:
        return "a page has five columns: pick five nodes at most";
    default:
        return "the manual says what it means";
    }
}

/* Reads the sheet of that file, or of standard input where there is no name, and gives its length; -1 where it cannot be read. */
static long read_sheet(const char *name)
{
    FILE *input = name == NULL ? stdin : fopen(name, "rb");
    size_t read;
    if (input == NULL)
        return -1;
    read = fread(sheet, 1, sizeof sheet, input);
    return ferror(input) ? -1 : (long)read;
}

int main(int count, char **arguments)
{
    long read = read_sheet(count > 1 ? arguments[1] : NULL);
    uint32_t number, place;
    size_t length;
    if (read < 0) {
        fprintf(stderr, "pages: cannot read the sheet\n");
        return 2;
    }
    number = matcher_sheet_pages(sheet, (size_t)read, pages, sizeof pages, &place, &length);
    if (number != 0) {
        printf("refused %u %u: %s\n", (unsigned)number, (unsigned)place, advice(number, place));
        return 1;
    }
    if (fwrite(pages, 1, length, stdout) != length || fflush(stdout) != 0) {
        fprintf(stderr, "pages: cannot write the pages\n");
        return 2;
    }
    return 0;
}
