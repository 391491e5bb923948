/* Reads an Arrow IPC stream from standard input and prints its schema, batches and columns.
 *
 *     read [PIECE]    feeds PIECE bytes at a time: 65,536 if it is not given
 *
 * The last line is that of `arrowstream check`. A refused stream has one line on standard error and
 * the status 1. The status is 3 if standard input failed, and 4 if memory ran out. */
#include "arrowstream.h"

#include <inttypes.h>
#include <stdio.h>
#include <stdlib.h>
#include <string.h>

enum { DONE = 0, REFUSED = 1, USAGE = 2, INPUT_FAILED = 3, NO_MEMORY = 4, MOST_STEPS = 80 };

typedef struct {
    arrowstream_column facts;
    uint8_t *validity, *offsets, *values;
} column_copy;

/* Copies a buffer into memory of its own, which the caller frees. NULL: memory ran out. */
static uint8_t *copy_buffer(arrowstream_batch *batch, const uint64_t *path, size_t steps,
                            uint32_t buffer, size_t count) {
    size_t wanted = 0;
    uint8_t *bytes = malloc(count + 1);
    if (bytes
        && (arrowstream_batch_buffer(batch, path, steps, buffer, bytes, count, &wanted)
                != ARROWSTREAM_OK
            || wanted != count))
        abort();
    return bytes;
}

static void free_copy(column_copy *column) {
    free(column->validity);
    free(column->offsets);
    free(column->values);
}

static int copy_column(arrowstream_batch *batch, const uint64_t *path, size_t steps,
                       column_copy *out) {
    out->facts.size = sizeof out->facts;
    if (arrowstream_batch_column(batch, path, steps, &out->facts) != ARROWSTREAM_OK) abort();
    out->validity =
        copy_buffer(batch, path, steps, ARROWSTREAM_BUFFER_VALIDITY, out->facts.validity);
    out->offsets = copy_buffer(batch, path, steps, ARROWSTREAM_BUFFER_OFFSETS, out->facts.offsets);
    out->values = copy_buffer(batch, path, steps, ARROWSTREAM_BUFFER_VALUES, out->facts.values);
    if (out->validity && out->offsets && out->values) return DONE;
    free_copy(out);
    return NO_MEMORY;
}

static int is_null(const column_copy *column, size_t slot) {
    if (column->facts.layout.kind == ARROWSTREAM_LAYOUT_NULL) return 1;
    return column->facts.validity != 0 && !(column->validity[slot / 8] >> (slot % 8) & 1);
}

static uint64_t little_endian(const uint8_t *bytes, size_t count) {
    uint64_t number = 0;
    while (count > 0) number = number << 8 | bytes[--count];
    return number;
}

static void print_number(const arrowstream_layout *layout, const uint8_t *values, size_t slot) {
    size_t count = layout->bits / 8;
    uint64_t number = little_endian(values + count * slot, count);
    uint64_t sign = UINT64_C(1) << (layout->bits - 1);
    if (layout->is_signed && (number & sign)) printf("-%" PRIu64, (~number & (sign - 1)) + 1);
    else printf("%" PRIu64, number);
}

static void print_bytes(const uint8_t *bytes, size_t count) {
    for (size_t i = 0; i < count; i++) printf("%02x", bytes[i]);
}

static void print_slot(const column_copy *column, size_t slot) {
    const arrowstream_layout *layout = &column->facts.layout;
    size_t from = 0, to = 0;
    if (column->facts.offsets != 0) {
        from = (size_t)little_endian(column->offsets + 4 * slot, 4);
        to = (size_t)little_endian(column->offsets + 4 * slot + 4, 4);
    }
    if (is_null(column, slot)) {
        printf("null");
        return;
    }
    switch (layout->kind) {
    case ARROWSTREAM_LAYOUT_BITS:
        printf(column->values[slot / 8] >> (slot % 8) & 1 ? "true" : "false");
        return;
    case ARROWSTREAM_LAYOUT_NUMBERS:
    case ARROWSTREAM_LAYOUT_INDICES:
        print_number(layout, column->values, slot);
        return;
    case ARROWSTREAM_LAYOUT_FIXED_BYTES:
        print_bytes(column->values + (size_t)layout->size * slot, layout->size);
        return;
    case ARROWSTREAM_LAYOUT_BYTES:
    case ARROWSTREAM_LAYOUT_TEXTS:
        print_bytes(column->values + from, to - from);
        return;
    case ARROWSTREAM_LAYOUT_LISTS:
        printf("%zu..%zu", from, to);
        return;
    default:
        printf("valid");
    }
}

/* Prints the column to which a path leads, and those below it. */
static int print_column(arrowstream_batch *batch, uint64_t *path, size_t steps) {
    column_copy column;
    if (copy_column(batch, path, steps, &column) != DONE) return NO_MEMORY;
    const arrowstream_column *facts = &column.facts;
    printf("column");
    for (size_t i = 0; i < steps; i++) {
        if (path[i] == ARROWSTREAM_DICTIONARY)
            printf(" dictionary");
        else printf(" %" PRIu64, path[i]);
    }
    printf(", layout %u, %zu slots, %" PRIu64 " nulls:", facts->layout.kind, facts->slots,
           facts->nulls);
    for (size_t slot = 0; slot < facts->slots; slot++) {
        putchar(' ');
        print_slot(&column, slot);
    }
    putchar('\n');
    free_copy(&column);
    int status = DONE;
    for (size_t child = 0; child < facts->children && status == DONE; child++) {
        path[steps] = child;
        status = print_column(batch, path, steps + 1);
    }
    path[steps] = ARROWSTREAM_DICTIONARY;
    arrowstream_column values = {.size = sizeof values};
    if (status == DONE && facts->layout.kind == ARROWSTREAM_LAYOUT_INDICES
        && arrowstream_batch_column(batch, path, steps + 1, &values) == ARROWSTREAM_OK)
        status = print_column(batch, path, steps + 1);
    return status;
}

/* Prints a text of which a call copies as much as is wanted. */
#define PRINT_TEXT(stream, call, object)                                                           \
    do {                                                                                           \
        size_t wanted = 0, room = 1;                                                               \
        uint8_t *text = malloc(room);                                                              \
        while (text && call((object), text, room, &wanted) == ARROWSTREAM_OK && wanted > room) {   \
            free(text);                                                                            \
            text = malloc(room = wanted);                                                          \
        }                                                                                          \
        if (text) fprintf((stream), "%.*s\n", (int)wanted, (const char *)text);                    \
        free(text);                                                                                \
    } while (0)

static int print_batch(arrowstream_reader *reader, size_t *rows) {
    arrowstream_batch *batch = NULL;
    uint64_t path[MOST_STEPS];
    int status = DONE;
    if (arrowstream_reader_take(reader, &batch) != ARROWSTREAM_OK) return NO_MEMORY;
    *rows += arrowstream_batch_rows(batch);
    printf("batch, %zu rows, %zu columns, pairs ", arrowstream_batch_rows(batch),
           arrowstream_batch_columns(batch));
    PRINT_TEXT(stdout, arrowstream_batch_pairs, batch);
    for (size_t column = 0; column < arrowstream_batch_columns(batch) && status == DONE; column++) {
        path[0] = column;
        status = print_column(batch, path, 1);
    }
    arrowstream_reader_reuse(reader, batch);
    return status;
}

static int refuse(arrowstream_reader *reader, uint32_t number) {
    PRINT_TEXT(stderr, arrowstream_reader_line, reader);
    return number == ARROWSTREAM_OUT_OF_MEMORY ? NO_MEMORY : REFUSED;
}

typedef struct {
    size_t bytes, batches, rows;
    int is_over;
} counts;

/* Feeds all bytes of a piece, and prints what they complete. */
static int feed_piece(arrowstream_reader *reader, const uint8_t *bytes, size_t count, counts *all) {
    while (count > 0 && !all->is_over) {
        arrowstream_progress now = {.size = sizeof now};
        int status = DONE;
        uint32_t number = arrowstream_reader_feed(reader, bytes, count, &now);
        if (number != ARROWSTREAM_OK) return refuse(reader, number);
        bytes += now.taken;
        count -= now.taken;
        all->bytes += now.taken;
        if (now.event == ARROWSTREAM_SCHEMA) PRINT_TEXT(stdout, arrowstream_reader_schema, reader);
        if (now.event == ARROWSTREAM_BATCH) status = print_batch(reader, &all->rows);
        all->batches += now.event == ARROWSTREAM_BATCH;
        all->is_over = now.event == ARROWSTREAM_END;
        if (status != DONE) return status;
    }
    return DONE;
}

static int read_stream(arrowstream_reader *reader, uint8_t *bytes, size_t piece) {
    counts all = {0, 0, 0, 0};
    arrowstream_progress now = {.size = sizeof now};
    size_t count;
    while (!all.is_over && (count = fread(bytes, 1, piece, stdin)) > 0) {
        int status = feed_piece(reader, bytes, count, &all);
        if (status != DONE) return status;
    }
    if (ferror(stdin)) return INPUT_FAILED;
    uint32_t number = arrowstream_reader_close(reader, &now);
    if (number != ARROWSTREAM_OK) return refuse(reader, number);
    printf("%s %zu bytes %zu batches %zu rows\n", now.event == ARROWSTREAM_END ? "mark" : "closed",
           all.bytes, all.batches, all.rows);
    return DONE;
}

int main(int count, char **words) {
    size_t piece = count > 1 ? strtoull(words[1], NULL, 10) : 65536;
    if (piece == 0 || arrowstream_version() != ARROWSTREAM_VERSION) return USAGE;
    arrowstream_limits limits = {.size = sizeof limits};
    arrowstream_reader *reader = NULL;
    arrowstream_limits_standard(&limits);
    arrowstream_reader_open(&limits, &reader);
    uint8_t *bytes = malloc(piece);
    int status = reader && bytes ? read_stream(reader, bytes, piece) : NO_MEMORY;
    free(bytes);
    if (reader) arrowstream_reader_free(reader);
    return status;
}
