/* Feeds, drawings and sheets with their answers, for calls.c: the sample, a two-way label, a fixed node, and a sheet with a pick too many for pages.
 */
#ifndef SAMPLES_H
#define SAMPLES_H

#include "matcher.h"

#define ANY MATCHER_ANY_OBJECT
#define COUNT(words) (sizeof(words) / sizeof(words)[0])

/* ---- the sample: two regions with one between them */

static const uint32_t feed[] = {1, 1, 4, 3, 1, 1, 2, 2, 3, 3, 4, 4, 1, 2, 2, 3, 3, 4};
static const uint32_t drawing[] = {3, 2, 0, 1, ANY, 0, 0, ANY, 0, 1, ANY, 0, 0, 1, 0, 1, 2};
static const uint32_t list[] = {0, 0, 0, 0, 0, 0, 0, 0, 0, 1, 0, 0, 1, 0, 0, 3, 3, 1, 3, 5, 4, 3, 0, 6, 3, 7, 2, 7, 8, 0, 8, 8, 0, 9, 8, 0};
static const uint32_t registers[] = { /* all of them; a run has room for those that live */
    1, 1, 2, 2, 3, 3, 4, 4, 1, 1, 2, 2, 3, 3, 4, 4, 1, 1, 2, 2, 3, 3, 4, 4, /* the class, three times */
    1, 2, 2, 3, 3, 4, 1, 2, 2, 3, 3, 4, 1, 2, 2, 3, 3, 4,                   /* the label twice, and its composition with m */
    1, 3, 2, 4, 1, 3, 2, 4, 1, 3, 2, 4,                                     /* the chain, from a, to b */
    589824, 1, 589825, 2, 589824, 3, 589825, 4,                             /* left tag, right tag */
    589824, 589824, 589825, 589825                                          /* tau */
};
/* where each register ends; the words that a run needs, at instruction 5, before which the loads live; a query keeps the tags and tau, a run tau */
static const size_t ends[] = {8, 16, 24, 30, 36, 42, 46, 50, 54, 58, 62, 66};
enum { WORK = 42, LOADS = 36, TAGS = 54, TAU = 62 };
static const uint32_t rows[] = {1, 3, 2, 4};
static const char sheet[] = "class object\nregion 1\nregion 2\nregion 3\nregion 4\n\nlabel from to\ntouch 1 2\ntouch 2 3\ntouch 3 4\n\n"
                            "node class pick fixed\na region 1 -\nm region 0 -\nb region 1 -\n\nedge source target\ntouch a m\ntouch m b\n";
static const char listing[] = "a b\n1 3\n2 4\n";
static const char pages[] = "            a            b                                       \n"
                            "            1            3                                       \n"
                            "            2            4                                       \n"
                            "                                                           page 1\n";

/* ---- a two-way label: region 1 of the first class, region 2 of the second, and the pair (2,1), which is met from 1 to 2 as well. */

static const uint32_t two_way_feed[] = {2, 1, 1, 1, 32768 + 1, 1, 1, 2, 2, 2, 1};
static const uint32_t two_way_drawing[] = {2, 1, 0, 1, ANY, 1, 1, ANY, 0, 0, 1};
static const uint32_t two_way_list[] = {0, 0, 0, 0, 1, 0, 1, 0, 0, 3, 0, 2, 3, 3, 1, 7, 4, 0, 8, 4, 0, 9, 4, 0};
static const uint32_t two_way_registers[] = {
    1, 1, 2, 2, 1, 2, 2, 1,                    /* the classes, the label in both directions */
    1, 2, 1, 2,                                /* from the first class, to the second */
    327680, 1, 327680, 2, 327680, 327680       /* left tag, right tag, tau */
};
enum { TWO_WAY_WORK = 10, TWO_WAY_LOADS = 8, TWO_WAY_TAGS = 12 };
static const uint32_t two_way_rows[] = {1, 2};
static const char two_way_sheet[] = "class object\na 1\nb 2\n\nlabel from to\ntouch* 2 1\n\n"
                                    "node class pick fixed\nx a 1 -\ny b 1 -\n\nedge source target\ntouch* x y\n";
static const char two_way_listing[] = "x y\n1 2\n";

/* ---- a fixed node: the sample with region 2 between them */

static const uint32_t fixed_drawing[] = {3, 2, 0, 1, ANY, 0, 0, 2, 0, 1, ANY, 0, 0, 1, 0, 1, 2};
static const uint32_t fixed_list[] = {0, 0, 0, 0, 0, 0, 14, 1, 2, 0, 0, 0, 1, 0, 0, 1, 0, 0, 3, 4, 2, 3, 6, 5,
                                      3, 0, 7, 3, 8, 3, 7, 9, 0, 8, 9, 0, 9, 9, 0};
static const uint32_t fixed_loads[] = {                               /* what lives before instruction 6, where the run needs most words */
    1, 1, 2, 2, 3, 3, 4, 4, 2, 2, 1, 1, 2, 2, 3, 3, 4, 4,             /* the class for a, 2 for m, the class for b */
    1, 2, 2, 3, 3, 4, 1, 2, 2, 3, 3, 4                                /* the label twice */
};
static const uint32_t fixed_kept[] = {655360, 1, 655360, 3, 655360, 655360}; /* left tag, right tag, tau */
enum { FIXED_WORK = 32 };
static const uint32_t fixed_rows[] = {1, 3};
static const char fixed_sheet[] = "class object\nregion 1\nregion 2\nregion 3\nregion 4\n\nlabel from to\ntouch 1 2\ntouch 2 3\ntouch 3 4\n\n"
                                  "node class pick fixed\na region 1 -\nm region 0 2\nb region 1 65536\n\nedge source target\n"
                                  "touch a m\ntouch m b\n";
static const char fixed_listing[] = "a b\n1 3\n";

/* ---- one pick more than a page has columns */

static const char six[] = "class object\na 7\n\nlabel from to\n\nnode class pick fixed\n"
                          "u a 1 -\nv a 1 -\nw a 1 -\nx a 1 -\ny a 1 -\nz a 1 -\n\nedge source target\n";

/* ---- feed and drawing, and what a query leaves in the three slices: in the work slice where it is stopped for want of one word, and at its end */

struct slice {
    const uint32_t *words;
    size_t n;
};

struct question {
    struct slice feed, drawing, list, stopped, kept, rows;
    size_t work_words;
};

#define SLICE(words) {words, COUNT(words)}

static const struct question sample = {
    SLICE(feed), SLICE(drawing), SLICE(list), {registers, LOADS}, {registers + TAGS, COUNT(registers) - TAGS}, SLICE(rows), WORK};
static const struct question two_way_sample = {SLICE(two_way_feed),
                                               SLICE(two_way_drawing),
                                               SLICE(two_way_list),
                                               {two_way_registers, TWO_WAY_LOADS},
                                               {two_way_registers + TWO_WAY_TAGS, COUNT(two_way_registers) - TWO_WAY_TAGS},
                                               SLICE(two_way_rows),
                                               TWO_WAY_WORK};
static const struct question fixed_sample = {
    SLICE(feed), SLICE(fixed_drawing), SLICE(fixed_list), SLICE(fixed_loads), SLICE(fixed_kept), SLICE(fixed_rows), FIXED_WORK};

#endif
