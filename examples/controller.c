/* A small line controller. It reads frames from standard input, each ended by a line of three dashes. A frame is the class section and the
 * label section of a sheet; the controller puts its drawing behind it, asks the sheet query, and prints the jets that would fire: one for
 * each row, at the region of the row's first column. A refused frame fires nothing, and neither does one whose end did not come.
 *
 * Exit status: 0 every frame was whole; 1 the last one was cut short; 2 the input could not be read or the output not be written.
 *
 *     gcc -Iinclude -o controller examples/controller.c target/staticlib/libmatcher.a
 *     ./controller < examples/controller.input
 */
#include <stdio.h>
#include <string.h>

#include "matcher.h"

/* A cap to be refused: it stands on a body, with the neck between them. A line that looks up a name has it beside it: a node line looks up its
 * class, an edge line its label, among the lines of the frame. */
static const struct {
    const char *line;
    const char *looks_up;
} drawing[] = {
    {"", NULL},
    {"node class pick fixed", NULL},
    {"refused cap 1 -", "cap"},
    {"neck neck 0 -", "neck"},
    {"body body 1 -", "body"},
    {"", NULL},
    {"edge source target", NULL},
    {"above refused neck", "above"},
    {"above neck body", "above"},
};

/* A sheet has up to 16,384 bytes, and no drawing more than 2,048. */
enum { DRAWING_LINES = sizeof drawing / sizeof drawing[0], DRAWING_ROOM = 2048, FRAME_ROOM = 16384 };

/* The bytes of a frame, then of the whole sheet. */
static uint8_t sheet[FRAME_ROOM + DRAWING_ROOM];
static uint8_t listing[MATCHER_LISTING_BYTES];

/* ---- a frame */

enum end { WHOLE, CUT_SHORT, NO_MORE };

struct frame {
    size_t bytes; /* all of them, also those that have no room */
    size_t lines;
};

/* Reads the next frame, byte by byte: any byte may come, and a line may have any length. */
static enum end next_frame(struct frame *frame)
{
    size_t column = 0, dashes = 0;
    int byte;
    frame->bytes = 0;
    frame->lines = 0;
    while ((byte = getchar()) != EOF) {
        if (byte == '\n' && column == 3 && dashes == 3) {
            frame->bytes -= 3;
            return WHOLE;
        }
        if (frame->bytes < FRAME_ROOM)
            sheet[frame->bytes] = (uint8_t)byte;
        frame->bytes++;
        column++;
        dashes += byte == '-';
        if (byte == '\n') {
            frame->lines++;
            column = dashes = 0;
        }
    }
    return frame->bytes == 0 ? NO_MORE : CUT_SHORT;
}

/* Puts the drawing behind the frame and returns the length of the sheet. A frame that had no room makes a sheet that is too long, and the query
 * refuses it as such. */
static size_t add_drawing(const struct frame *frame)
{
    size_t used = frame->bytes < FRAME_ROOM ? frame->bytes : FRAME_ROOM;
    for (size_t i = 0; i < DRAWING_LINES; i++) {
        size_t n = strlen(drawing[i].line);
        memcpy(sheet + used, drawing[i].line, n);
        used += n;
        sheet[used++] = '\n';
    }
    return used;
}

/* ---- a listing */

static int is_digit(uint8_t byte)
{
    return byte >= '0' && byte <= '9';
}

/* The number that stands at `*at`, which is moved behind it. */
static unsigned long number_at(size_t length, size_t *at)
{
    unsigned long number = 0;
    while (*at < length && is_digit(listing[*at]))
        number = 10 * number + (listing[(*at)++] - '0');
    return number;
}

/* A refusal has a digit behind the word. Here every listing begins with `refused `, for a node has that name. */
static int is_refusal(size_t length)
{
    return length > 8 && memcmp(listing, "refused ", 8) == 0 && is_digit(listing[8]);
}

/* Prints a refusal. 14 at a line of the drawing that looks up a name says that no line of the frame has this name: nothing of the kind was
 * seen. That is no mistake of anybody's. */
static void print_refusal(size_t length, const struct frame *frame)
{
    size_t at = 8;
    unsigned long number = number_at(length, &at);
    at++;
    unsigned long place = number_at(length, &at);
    size_t line = place - frame->lines - 1;
    if (number == 14 && place > frame->lines && line < DRAWING_LINES && drawing[line].looks_up != NULL)
        printf("no jets, for no '%s' was seen\n", drawing[line].looks_up);
    else
        printf("no jets, refused %lu %lu\n", number, place);
}

/* The place behind the line in which `at` stands. */
static size_t next_line(size_t length, size_t at)
{
    while (at < length && listing[at] != '\n')
        at++;
    return at + 1;
}

/* Prints the jets: the first number of each line behind the first. */
static void print_jets(size_t length)
{
    size_t at = next_line(length, 0);
    printf(at < length ? "jets" : "no jets");
    for (; at < length; at = next_line(length, at))
        printf(" %lu", number_at(length, &at));
    printf("\n");
}

int main(void)
{
    struct frame frame;
    enum end end = next_frame(&frame);
    unsigned long number = 1;
    for (; end == WHOLE; end = next_frame(&frame)) {
        size_t length = matcher_sheet_query(sheet, add_drawing(&frame), listing, sizeof listing);
        printf("frame %lu: ", number++);
        if (is_refusal(length))
            print_refusal(length, &frame);
        else
            print_jets(length);
    }
    if (end == CUT_SHORT)
        printf("frame %lu: no jets, cut short\n", number);
    if (ferror(stdin) || fflush(stdout) != 0 || ferror(stdout)) {
        fprintf(stderr, "controller: cannot read the input or write the output\n");
        return 2;
    }
    return end == CUT_SHORT;
}
