/* Every call of matcher.h from C: the answers of samples.h, with words before and behind all that is written; slices of length 0 at a null pointer;
 * slices that were never written, for valgrind; and several threads at once. Compiled as C99 and as C++.
 * The last line is 'N passed, M failed'. With `--few` the threads ask less often, for valgrind.
 */
#include "matcher.h"
#include "samples.h"

#include <pthread.h>
#include <stdio.h>
#include <stdlib.h>
#include <string.h>

/* ---- the samples as arguments */

#define FEED feed, COUNT(feed)
#define DRAWING drawing, COUNT(drawing)
#define LIST list, COUNT(list)
#define SHEET (const uint8_t *)sheet, sizeof sheet - 1

/* ---- comparing */

struct tally {
    unsigned passed, failed;
};

static void same(struct tally *t, const char *what, size_t found, size_t expected)
{
    if (found == expected) {
        t->passed++;
        return;
    }
    if (++t->failed <= 10)
        printf("%s: found %lu, expected %lu\n", what, (unsigned long)found, (unsigned long)expected);
}

/* ---- what is lent: guards stand before and behind it */

enum { GUARD = 8, MOST = 80, ALL = GUARD + MOST + GUARD, MOST_BYTES = 280, ALL_BYTES = GUARD + MOST_BYTES + GUARD };

#define FILL 0xa5a5a5a5u

struct words {
    uint32_t all[ALL];
    size_t len;
};

struct bytes {
    uint8_t all[ALL_BYTES];
    size_t len;
};

/* A place and a count. */
struct answer {
    uint32_t before, place, behind;
    size_t before_count, count, behind_count;
};

static uint32_t *lend(struct words *lent, size_t len)
{
    memset(lent->all, FILL & 0xff, sizeof lent->all);
    lent->len = len;
    return lent->all + GUARD;
}

static uint8_t *lend_bytes(struct bytes *lent, size_t len)
{
    memset(lent->all, FILL & 0xff, sizeof lent->all);
    lent->len = len;
    return lent->all + GUARD;
}

static struct answer *ready(struct answer *a)
{
    memset(a, FILL & 0xff, sizeof *a);
    return a;
}

/* The slice begins with these words, and `rest` stands behind them; the guards are as they were. */
static void holds(struct tally *t, const char *what, const struct words *lent, const uint32_t *words, size_t n, uint32_t rest)
{
    size_t i, wrong = 0;
    for (i = 0; i < ALL; i++) {
        uint32_t expected = FILL;
        if (i >= GUARD && i < GUARD + n)
            expected = words[i - GUARD];
        else if (i >= GUARD && i < GUARD + lent->len)
            expected = rest;
        wrong += lent->all[i] != expected;
    }
    same(t, what, wrong, 0);
}

/* The same for bytes. */
static void holds_bytes(struct tally *t, const char *what, const struct bytes *lent, const char *text, size_t n, uint8_t rest)
{
    size_t i, wrong = 0;
    for (i = 0; i < ALL_BYTES; i++) {
        uint8_t expected = FILL & 0xff;
        if (i >= GUARD && i < GUARD + n)
            expected = (uint8_t)text[i - GUARD];
        else if (i >= GUARD && i < GUARD + lent->len)
            expected = rest;
        wrong += lent->all[i] != expected;
    }
    same(t, what, wrong, 0);
}

/* Number and place, and no word beside the place and the count. */
static void says(struct tally *t, const char *what, uint32_t found, const struct answer *a, uint32_t number, uint32_t place)
{
    struct answer fresh;
    ready(&fresh);
    same(t, what, found, number);
    same(t, what, a->place, place);
    same(t, what, a->before == FILL && a->behind == FILL, 1);
    same(t, what, a->before_count == fresh.count && a->behind_count == fresh.count, 1);
}

/* ---- the calls, accepted and refused */

static void checks(struct tally *t)
{
    static const uint32_t unequal[] = {1, 0, 1, 5, 6};
    static const uint32_t unknown[] = {1, 0, 7, 1, ANY}, high[] = {1, 0, 0, 1, ANY + 1}, old[] = {1, 0, 0, 1};
    static const uint32_t both[] = {1, 0, 0, 1, ANY};
    struct answer a;
    uint32_t number = matcher_check_feed(FEED, &ready(&a)->place);
    says(t, "check_feed", number, &a, 0, 0);
    number = matcher_check_feed(unequal, COUNT(unequal), &ready(&a)->place);
    says(t, "check_feed, refused", number, &a, 4, 3);
    number = matcher_check_drawing(FEED, DRAWING, &ready(&a)->place);
    says(t, "check_drawing", number, &a, 0, 0);
    number = matcher_check_drawing(FEED, unknown, COUNT(unknown), &ready(&a)->place);
    says(t, "check_drawing, refused", number, &a, 6, 2);
    says(t, "check_drawing, 65,537", matcher_check_drawing(FEED, high, COUNT(high), &ready(&a)->place), &a, 6, 4);
    says(t, "check_drawing, two words a node", matcher_check_drawing(FEED, old, COUNT(old), &ready(&a)->place), &a, 5, 0);
    /* slices that are only read may overlap: one class without objects, and one node of it */
    number = matcher_check_drawing(both, 3, both, COUNT(both), &ready(&a)->place);
    says(t, "check_drawing, overlapping", number, &a, 0, 0);
}

static void translations(struct tally *t)
{
    struct answer a;
    struct words lent;
    uint32_t *to = lend(&lent, COUNT(list) + 4);
    uint32_t number = matcher_translate(FEED, DRAWING, to, lent.len, &ready(&a)->place, &a.count);
    says(t, "translate", number, &a, 0, 0);
    same(t, "translate, instructions", a.count, COUNT(list) / 3);
    holds(t, "translate, list", &lent, LIST, 0);
    to = lend(&lent, COUNT(list) - 1);
    number = matcher_translate(FEED, DRAWING, to, lent.len, &ready(&a)->place, &a.count);
    says(t, "translate, refused", number, &a, 13, COUNT(list) / 3);
    same(t, "translate, refused, instructions", a.count, 0);
    holds(t, "translate, refused, list", &lent, list, 0, FILL);
}

/* The sample's list with this many work words: accepted, and the slice holds the last register, then zeros. */
static void one_run(struct tally *t, const char *what, size_t work_words)
{
    struct answer a;
    struct words lent;
    uint32_t *work = lend(&lent, work_words);
    says(t, what, matcher_run(FEED, LIST, work, lent.len, &ready(&a)->place), &a, 0, 0);
    holds(t, what, &lent, registers + TAU, COUNT(registers) - TAU, 0);
}

/* With a word less than it needs it is stopped at instruction 5, before which the loads live. */
static void runs(struct tally *t)
{
    struct answer a;
    struct words lent;
    uint32_t *work = lend(&lent, WORK - 1);
    one_run(t, "run, 42 words", 42);
    one_run(t, "run, 43 words", 43);
    one_run(t, "run, room for all registers", COUNT(registers));
    same(t, "run, 41 words: one short", lent.len, 41);
    says(t, "run, 41 words", matcher_run(FEED, LIST, work, lent.len, &ready(&a)->place), &a, 10, 5);
    holds(t, "run, 41 words, work", &lent, registers, LOADS, 0);
}

/* The sample's list cut behind each instruction: in the words that the whole needs, accepted, and the slice holds that register alone. */
static void cut_runs(struct tally *t)
{
    struct answer a;
    struct words lent;
    size_t i;
    for (i = 0; i < COUNT(ends); i++) {
        size_t begin = i == 0 ? 0 : ends[i - 1];
        uint32_t *work = lend(&lent, WORK);
        says(t, "run, cut", matcher_run(FEED, list, 3 * (i + 1), work, lent.len, &ready(&a)->place), &a, 0, 0);
        holds(t, "run, cut, work", &lent, registers + begin, ends[i] - begin, 0);
    }
}

/* A run of the sample's list in which the word at this place has another value: this number at that place, and the work slice is as it was. */
static void one_refused_run(struct tally *t, const char *what, uint32_t place, uint32_t value, uint32_t number)
{
    struct answer a;
    struct words lent;
    uint32_t other[COUNT(list)], *work = lend(&lent, COUNT(registers));
    memcpy(other, list, sizeof list);
    other[place] = value;
    says(t, what, matcher_run(FEED, other, COUNT(other), work, lent.len, &ready(&a)->place), &a, number, place);
    holds(t, what, &lent, registers, 0, FILL);
}

/* Word 15 is the kind of instruction 5, a composition; word 29 is the unused one of instruction 9. */
static void refused_runs(struct tally *t)
{
    one_refused_run(t, "run, unknown kind", 15, 16, 9);
    one_refused_run(t, "run, a not earlier", 16, 5, 16);
    one_refused_run(t, "run, b not earlier", 17, 5, 16);
    one_refused_run(t, "run, class absent", 1, 1, 16);
    one_refused_run(t, "run, label absent", 10, 1, 16);
    one_refused_run(t, "run, unused word", 29, 1, 17);
}

/* A query with so many work and row words: number and place, and how many words of rows there are; `rest` stands behind them. Where it is accepted,
 * and after 12, the work slice holds what the query keeps; after 10 the first `standing` words of what it leaves there. */
static void one_query(struct tally *t, const char *what, const struct question *q, size_t work_words, size_t row_words, uint32_t number,
                      uint32_t place, size_t standing, size_t given, uint32_t rest)
{
    struct answer a;
    struct words to, work, out;
    uint32_t *l = lend(&to, q->list.n), *w = lend(&work, work_words), *r = lend(&out, row_words);
    uint32_t found = matcher_query(q->feed.words, q->feed.n, q->drawing.words, q->drawing.n, l, to.len, w, work.len, r, out.len,
                                   &ready(&a)->place, &a.count);
    says(t, what, found, &a, number, place);
    same(t, what, a.count, given);
    holds(t, what, &to, q->list.words, q->list.n, 0);
    holds(t, what, &work, number == 10 ? q->stopped.words : q->kept.words, standing, 0);
    holds(t, what, &out, q->rows.words, given, rest);
}

/* A query with the work words that it needs, with more, with too few row words, and with a work word less: then it is stopped at this place. */
static void about(struct tally *t, const char *what, const struct question *q, uint32_t place)
{
    const size_t kept = q->kept.n, given = q->rows.n;
    one_query(t, what, q, q->work_words, given + 1, 0, 0, kept, given, FILL);
    one_query(t, what, q, q->work_words + 3, given, 0, 0, kept, given, FILL);
    one_query(t, what, q, q->work_words, given - 1, 12, 0, kept, 0, 0);
    one_query(t, what, q, q->work_words - 1, given, 10, place, q->stopped.n, 0, FILL);
}

static void queries(struct tally *t)
{
    about(t, "query", &sample, 5);
    one_query(t, "query, 42 words", &sample, 42, 4, 0, 0, 12, 4, FILL);
    one_query(t, "query, 41 words", &sample, 41, 4, 10, 5, 36, 0, FILL);
    one_query(t, "query, room for all registers", &sample, COUNT(registers), 4, 0, 0, 12, 4, FILL);
}

static void sheets(struct tally *t)
{
    static const char refusal[] = "refused 14 1\n";
    const size_t exact = sizeof listing - 1;
    struct bytes lent;
    uint8_t *to = lend_bytes(&lent, exact + 5);
    same(t, "sheet_query", matcher_sheet_query(SHEET, to, lent.len), exact);
    holds_bytes(t, "sheet_query, listing", &lent, listing, exact, FILL & 0xff);
    to = lend_bytes(&lent, exact - 1);
    same(t, "sheet_query, too short", matcher_sheet_query(SHEET, to, lent.len), 0);
    holds_bytes(t, "sheet_query, too short, listing", &lent, listing, 0, 0);
    to = lend_bytes(&lent, sizeof refusal - 1);
    same(t, "sheet_query, refused", matcher_sheet_query((const uint8_t *)"x", 1, to, lent.len), sizeof refusal - 1);
    holds_bytes(t, "sheet_query, refused, listing", &lent, refusal, sizeof refusal - 1, 0);
}

/* Pages in a buffer of so many bytes: number and place, how many bytes are given, and what stands behind them. */
static void one_paging(struct tally *t, const char *what, const char *from, size_t n, size_t room, uint32_t number, uint32_t place, size_t given,
                       uint8_t rest)
{
    struct answer a;
    struct bytes lent;
    uint8_t *to = lend_bytes(&lent, room);
    says(t, what, matcher_sheet_pages((const uint8_t *)from, n, to, lent.len, &ready(&a)->place, &a.count), &a, number, place);
    same(t, what, a.count, given);
    holds_bytes(t, what, &lent, pages, given, rest);
}

static void paging(struct tally *t)
{
    const size_t exact = sizeof pages - 1;
    one_paging(t, "sheet_pages", sheet, sizeof sheet - 1, exact + 5, 0, 0, exact, FILL & 0xff);
    one_paging(t, "sheet_pages, exact", sheet, sizeof sheet - 1, exact, 0, 0, exact, 0);
    one_paging(t, "sheet_pages, too short", sheet, sizeof sheet - 1, exact - 1, 12, 0, 0, 0);
    one_paging(t, "sheet_pages, six picks", six, sizeof six - 1, exact, 15, 0, 0, FILL & 0xff);
    one_paging(t, "sheet_pages, a breach", "x", 1, exact, 14, 1, 0, FILL & 0xff);
}

static void two_way(struct tally *t)
{
    static const uint32_t marked_class[] = {1, 0, 32768}, no_pairs[] = {0, 1, 32768}, too_many[] = {0, 1, 36865};
    const size_t text = sizeof two_way_listing - 1;
    struct answer a;
    struct bytes lent;
    uint8_t *to = lend_bytes(&lent, text + 1);
    says(t, "a two-way label", matcher_check_feed(two_way_feed, COUNT(two_way_feed), &ready(&a)->place), &a, 0, 0);
    says(t, "a two-way label, no pairs", matcher_check_feed(no_pairs, COUNT(no_pairs), &ready(&a)->place), &a, 0, 0);
    says(t, "a two-way label, too many", matcher_check_feed(too_many, COUNT(too_many), &ready(&a)->place), &a, 2, 2);
    says(t, "a marked class", matcher_check_feed(marked_class, COUNT(marked_class), &ready(&a)->place), &a, 2, 2);
    about(t, "query, two-way", &two_way_sample, 3);
    one_query(t, "query, two-way, no room for the label", &two_way_sample, 7, 3, 10, 2, 4, 0, FILL);
    same(t, "sheet_query, two-way", matcher_sheet_query((const uint8_t *)two_way_sheet, sizeof two_way_sheet - 1, to, lent.len), text);
    holds_bytes(t, "sheet_query, two-way, listing", &lent, two_way_listing, text, FILL & 0xff);
}

/* Region 2 between two others, with room for all and with less; and region 7, which is in no class: no rows, and no refusal. */
static void fixed(struct tally *t)
{
    const size_t text = sizeof fixed_listing - 1;
    uint32_t other[COUNT(fixed_drawing)], place, work[FIXED_WORK], out[] = {FILL}, to[COUNT(fixed_list)];
    size_t given = 1;
    struct bytes lent;
    uint8_t *bytes = lend_bytes(&lent, text + 1);
    struct question at_two = fixed_sample;
    at_two.stopped = sample.stopped;
    about(t, "query, fixed", &fixed_sample, 6);
    /* before kind 14 the class stands twice, as it does before the sample's third load */
    one_query(t, "query, fixed, no room for kind 14", &at_two, 17, 3, 10, 2, 16, 0, FILL);
    memcpy(other, fixed_drawing, sizeof other);
    other[7] = 7;
    same(t, "query, outside the class", matcher_query(FEED, other, COUNT(other), to, COUNT(to), work, COUNT(work), out, 1, &place, &given), 0);
    same(t, "query, outside the class, rows", given == 0 && out[0] == FILL, 1);
    same(t, "sheet_query, fixed", matcher_sheet_query((const uint8_t *)fixed_sheet, sizeof fixed_sheet - 1, bytes, lent.len), text);
    holds_bytes(t, "sheet_query, fixed, listing", &lent, fixed_listing, text, FILL & 0xff);
}

static void all_calls(struct tally *t)
{
    checks(t);
    translations(t);
    runs(t);
    cut_runs(t);
    refused_runs(t);
    queries(t);
    sheets(t);
    paging(t);
    two_way(t);
    fixed(t);
}

/* ---- a null pointer with length 0, for every slice of every call */

static void null_words(struct tally *t)
{
    struct answer a;
    struct words to, work;
    uint32_t *l = lend(&to, COUNT(list)), *w = lend(&work, COUNT(registers));
    says(t, "check_feed, no feed", matcher_check_feed(NULL, 0, &ready(&a)->place), &a, 1, 0);
    says(t, "check_drawing, no feed", matcher_check_drawing(NULL, 0, DRAWING, &ready(&a)->place), &a, 1, 0);
    says(t, "check_drawing, no drawing", matcher_check_drawing(FEED, NULL, 0, &ready(&a)->place), &a, 5, 0);
    says(t, "translate, no feed", matcher_translate(NULL, 0, DRAWING, l, to.len, &ready(&a)->place, &a.count), &a, 1, 0);
    says(t, "translate, no drawing", matcher_translate(FEED, NULL, 0, l, to.len, &ready(&a)->place, &a.count), &a, 5, 0);
    says(t, "translate, no list", matcher_translate(FEED, DRAWING, NULL, 0, &ready(&a)->place, &a.count), &a, 13, COUNT(list) / 3);
    says(t, "run, no feed", matcher_run(NULL, 0, LIST, w, work.len, &ready(&a)->place), &a, 1, 0);
    says(t, "run, no list", matcher_run(FEED, NULL, 0, w, work.len, &ready(&a)->place), &a, 8, 0);
    says(t, "run, no work", matcher_run(FEED, LIST, NULL, 0, &ready(&a)->place), &a, 10, 0);
    holds(t, "no slice, list", &to, list, 0, FILL);
    holds(t, "no slice, work", &work, registers, 0, FILL);
}

/* A query in which the slices that are 0 here have no words. */
static void null_query(struct tally *t, const char *what, const int has[5], uint32_t number, uint32_t place)
{
    struct answer a;
    struct words to, work, out;
    uint32_t *l = lend(&to, COUNT(list)), *w = lend(&work, COUNT(registers)), *r = lend(&out, COUNT(rows));
    uint32_t found = matcher_query(has[0] ? feed : NULL, has[0] ? COUNT(feed) : 0, has[1] ? drawing : NULL, has[1] ? COUNT(drawing) : 0,
                                   has[2] ? l : NULL, has[2] ? to.len : 0, has[3] ? w : NULL, has[3] ? work.len : 0,
                                   has[4] ? r : NULL, has[4] ? out.len : 0, &ready(&a)->place, &a.count);
    says(t, what, found, &a, number, place);
    same(t, what, a.count, 0);
}

static void null_queries(struct tally *t)
{
    static const int no_feed[] = {0, 1, 1, 1, 1}, no_drawing[] = {1, 0, 1, 1, 1}, no_list[] = {1, 1, 0, 1, 1};
    static const int no_work[] = {1, 1, 1, 0, 1}, no_rows[] = {1, 1, 1, 1, 0}, none[] = {0, 0, 0, 0, 0};
    /* one class without objects, one node: no pair and no row, so nothing has to be lent for them */
    static const uint32_t empty[] = {1, 0, 0}, node[] = {1, 0, 0, 1, ANY};
    uint32_t load[3];
    struct answer a;
    null_query(t, "query, no feed", no_feed, 1, 0);
    null_query(t, "query, no drawing", no_drawing, 5, 0);
    null_query(t, "query, no list", no_list, 13, COUNT(list) / 3);
    null_query(t, "query, no work", no_work, 10, 0);
    null_query(t, "query, no rows", no_rows, 12, 0);
    null_query(t, "query, nothing", none, 1, 0);
    says(t, "query, accepted without work and rows",
         matcher_query(empty, COUNT(empty), node, COUNT(node), load, COUNT(load), NULL, 0, NULL, 0, &ready(&a)->place, &a.count), &a, 0, 0);
    same(t, "query, accepted without work and rows", a.count, 0);
}

static void null_bytes(struct tally *t)
{
    static const char refusal[] = "refused 14 1\n";
    struct bytes lent;
    struct answer a;
    uint8_t *to = lend_bytes(&lent, MOST_BYTES);
    same(t, "sheet_query, no sheet", matcher_sheet_query(NULL, 0, to, lent.len), sizeof refusal - 1);
    holds_bytes(t, "sheet_query, no sheet, listing", &lent, refusal, sizeof refusal - 1, FILL & 0xff);
    same(t, "sheet_query, no listing", matcher_sheet_query(SHEET, NULL, 0), 0);
    same(t, "sheet_query, neither", matcher_sheet_query(NULL, 0, NULL, 0), 0);
    to = lend_bytes(&lent, MOST_BYTES);
    says(t, "sheet_pages, no sheet", matcher_sheet_pages(NULL, 0, to, lent.len, &ready(&a)->place, &a.count), &a, 14, 1);
    holds_bytes(t, "sheet_pages, no sheet, pages", &lent, pages, 0, FILL & 0xff);
    says(t, "sheet_pages, no pages", matcher_sheet_pages(SHEET, NULL, 0, &ready(&a)->place, &a.count), &a, 12, 0);
    same(t, "sheet_pages, no pages, length", a.count, 0);
    says(t, "sheet_pages, neither", matcher_sheet_pages(NULL, 0, NULL, 0, &ready(&a)->place, &a.count), &a, 14, 1);
}

/* ---- slices in blocks of their own that were never written: valgrind sees a use of their words, and an access beside them */

static void unwritten(struct tally *t)
{
    const size_t words[] = {COUNT(list), WORK, COUNT(rows)}, kept = sample.kept.n;
    uint32_t place, *lent[3];
    size_t i, count, exact = sizeof listing - 1, whole = sizeof pages - 1;
    uint8_t *to = (uint8_t *)malloc(exact), *paper = (uint8_t *)malloc(whole);
    for (i = 0; i < 3; i++)
        lent[i] = (uint32_t *)malloc(words[i] * sizeof(uint32_t));
    if (to == NULL || paper == NULL || lent[0] == NULL || lent[1] == NULL || lent[2] == NULL) {
        same(t, "memory", 0, 1);
        return;
    }
    same(t, "unwritten, query", matcher_query(FEED, DRAWING, lent[0], words[0], lent[1], words[1], lent[2], words[2], &place, &count), 0);
    same(t, "unwritten, rows", count == COUNT(rows) && memcmp(lent[2], rows, sizeof rows) == 0, 1);
    same(t, "unwritten, list", memcmp(lent[0], list, sizeof list), 0);
    same(t, "unwritten, work", memcmp(lent[1], sample.kept.words, kept * sizeof(uint32_t)), 0);
    for (i = kept; i < WORK; i++)
        same(t, "unwritten, zeros", lent[1][i], 0);
    same(t, "unwritten, sheet query", matcher_sheet_query(SHEET, to, exact), exact);
    same(t, "unwritten, listing", memcmp(to, listing, exact), 0);
    same(t, "unwritten, sheet pages", matcher_sheet_pages(SHEET, paper, whole, &place, &count), 0);
    same(t, "unwritten, pages", count == whole && memcmp(paper, pages, whole) == 0, 1);
    for (i = 0; i < 3; i++)
        free(lent[i]);
    free(to);
    free(paper);
}

/* ---- threads: the samples that are read are the same for all, the slices that are written to are each one's own */

enum { THREADS = 4 };

static int most_rounds = 500;

static void *rounds(void *tally)
{
    int i;
    for (i = 0; i < most_rounds; i++)
        all_calls((struct tally *)tally);
    return NULL;
}

static void threads(struct tally *t)
{
    pthread_t started[THREADS];
    struct tally own[THREADS], alone = {0, 0};
    int i;
    all_calls(&alone);
    memset(own, 0, sizeof own);
    for (i = 0; i < THREADS; i++)
        if (pthread_create(&started[i], NULL, rounds, &own[i]) != 0) {
            printf("thread %d does not start\n", i);
            exit(1);
        }
    for (i = 0; i < THREADS; i++) {
        pthread_join(started[i], NULL);
        same(t, "a thread among others", own[i].passed, (size_t)most_rounds * alone.passed);
    }
}

int main(int count, char **arguments)
{
    struct tally t = {0, 0};
    if (count > 1 && strcmp(arguments[1], "--few") == 0)
        most_rounds = 5;
    all_calls(&t);
    null_words(&t);
    null_queries(&t);
    null_bytes(&t);
    unwritten(&t);
    threads(&t);
    printf("%u passed, %u failed\n", t.passed, t.failed);
    return t.failed != 0;
}
