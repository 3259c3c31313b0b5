/* The program on libfixbuf that `collectd files` is measured beside: one thread, a hash table, and its rows sorted in
 * the end.
 *
 *     fixbuf FILE..
 *
 * writes the table of octets by source address and minute as CSV. */

#include <fixbuf/public.h>
#include <inttypes.h>
#include <stdio.h>
#include <stdlib.h>

enum { LENGTH = 60000, TEMPLATE = 999 };

/* What is read of a record: libfixbuf makes one of each data record, with 0 for what that lacks. */
typedef struct {
    uint64_t start, end, octets;
    uint32_t source;
    uint8_t padding[4];
} flow_t;

static fbInfoElementSpec_t specs[] = {
    {(char *)"flowStartMilliseconds", 8, 0},
    {(char *)"flowEndMilliseconds", 8, 0},
    {(char *)"octetDeltaCount", 8, 0},
    {(char *)"sourceIPv4Address", 4, 0},
    {(char *)"paddingOctets", 4, 0},
    FB_IESPEC_NULL,
};

/* A row. The key is the interval and then the address; one without flows is free. */
typedef struct {
    uint64_t interval;
    uint32_t source;
    uint64_t octets, flows;
} row_t;

/* The rows by a hash, at most half of the places taken. There are a power of two of them. */
typedef struct {
    row_t *places;
    size_t size, used;
} rows_t;

static void fail(const char *what) {
    fprintf(stderr, "fixbuf: %s\n", what);
    exit(1);
}

static void fail_by(GError *error) {
    fail(error ? error->message : "unknown fault");
}

static rows_t new_rows(size_t size) {
    rows_t rows = {calloc(size, sizeof(row_t)), size, 0};
    if (!rows.places) fail("out of memory");
    return rows;
}

/* The place of a key, where it stands or where it is to stand. */
static row_t *find(const rows_t *rows, uint64_t interval, uint32_t source) {
    uint64_t hash = (interval << 32 ^ interval ^ source) * UINT64_C(0x9e3779b97f4a7c15);
    for (size_t at = hash >> 20;; at++) {
        row_t *row = &rows->places[at & (rows->size - 1)];
        if (!row->flows || (row->interval == interval && row->source == source)) return row;
    }
}

static void grow(rows_t *rows) {
    rows_t larger = new_rows(2 * rows->size);
    for (size_t at = 0; at < rows->size; at++) {
        row_t *row = &rows->places[at];
        if (row->flows) *find(&larger, row->interval, row->source) = *row;
    }
    larger.used = rows->used;
    free(rows->places);
    *rows = larger;
}

static void add(rows_t *rows, const flow_t *flow) {
    row_t *row = find(rows, flow->start / LENGTH, flow->source);
    if (__builtin_add_overflow(row->octets, flow->octets, &row->octets)) fail("a sum is too large");
    if (row->flows++) return;
    row->interval = flow->start / LENGTH;
    row->source = flow->source;
    if (2 * ++rows->used > rows->size) grow(rows);
}

/* Whether the template has a time, an end and an address. */
static int has_all(fbTemplate_t *template) {
    return fbTemplateContainsElementByName(template, &specs[0]) && fbTemplateContainsElementByName(template, &specs[1]) &&
           fbTemplateContainsElementByName(template, &specs[3]);
}

static fBuf_t *open_file(fbInfoModel_t *model, const char *path) {
    GError *error = NULL;
    fbSession_t *session = fbSessionAlloc(model);
    fbTemplate_t *template = fbTemplateAlloc(model);
    if (!fbTemplateAppendSpecArray(template, specs, UINT32_MAX, &error)) fail_by(error);
    if (!fbSessionAddTemplate(session, TRUE, TEMPLATE, template, &error)) fail_by(error);
    fbCollector_t *collector = fbCollectorAllocFile(NULL, path, &error);
    if (!collector) fail_by(error);
    fBuf_t *buffer = fBufAllocForCollection(session, collector);
    if (!fBufSetInternalTemplate(buffer, TEMPLATE, &error)) fail_by(error);
    return buffer;
}

/* Adds the records of a file. Its session goes with the buffer. */
static void add_file(fbInfoModel_t *model, const char *path, rows_t *rows) {
    GError *error = NULL;
    fBuf_t *buffer = open_file(model, path);
    fbTemplate_t *seen = NULL;
    flow_t flow;
    size_t length = sizeof flow;
    int whole = 0;
    while (fBufNext(buffer, (uint8_t *)&flow, &length, &error)) {
        fbTemplate_t *template = fBufGetCollectionTemplate(buffer, NULL);
        if (template != seen) whole = has_all(seen = template);
        if (whole && flow.end >= flow.start) add(rows, &flow);
        length = sizeof flow;
    }
    if (!g_error_matches(error, FB_ERROR_DOMAIN, FB_ERROR_EOF)) fail_by(error);
    g_clear_error(&error);
    fBufFree(buffer);
}

static int compare(const void *one, const void *other) {
    const row_t *a = one, *b = other;
    if (a->interval != b->interval) return a->interval < b->interval ? -1 : 1;
    return (a->source > b->source) - (a->source < b->source);
}

/* Leaves the rows alone, in order. */
static void sort(rows_t *rows) {
    size_t end = 0;
    for (size_t at = 0; at < rows->size; at++) {
        if (rows->places[at].flows) rows->places[end++] = rows->places[at];
    }
    qsort(rows->places, end, sizeof(row_t), compare);
}

static void write_csv(const rows_t *rows) {
    puts("start,end,sourceIPv4Address,octetDeltaCount,flows");
    for (size_t at = 0; at < rows->used; at++) {
        const row_t *row = &rows->places[at];
        uint64_t start = row->interval * LENGTH;
        printf("%" PRIu64 ",%" PRIu64 ",%u.%u.%u.%u,%" PRIu64 ",%" PRIu64 "\n", start, start + LENGTH - 1, row->source >> 24,
               row->source >> 16 & 255, row->source >> 8 & 255, row->source & 255, row->octets, row->flows);
    }
}

int main(int words, char **word) {
    fbInfoModel_t *model = fbInfoModelAlloc();
    rows_t rows = new_rows(1 << 16);
    for (int file = 1; file < words; file++) add_file(model, word[file], &rows);
    sort(&rows);
    setvbuf(stdout, NULL, _IOFBF, 1 << 16);
    write_csv(&rows);
    return fflush(stdout) ? 1 : 0;
}
