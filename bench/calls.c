/* Measures calls of include/arrowstream.h and include/arrowstream_cdata.h.
 *
 *     calls              prints the nanoseconds of one call, for two calls
 *     calls check        reads the stream on standard input in pieces of 1 MiB, and counts its rows
 *     calls export       exports the stream by the Arrow C stream interface, and counts its rows
 */
#include "arrowstream_cdata.h"

#include <stdio.h>
#include <stdlib.h>
#include <string.h>
#include <time.h>

enum { CALLS = 10000000, CELLS = 1000, PIECE = 1 << 20 };

static const char schema[] =
    "{\"fields\":[{\"name\":\"a\",\"type\":[\"int\",64],\"nullable\":false,\"children\":0,"
    "\"dictionary\":null,\"metadata\":[]}],\"metadata\":[]}";

static void must(int holds, const char *what) {
    if (holds) return;
    fprintf(stderr, "calls: %s\n", what);
    exit(1);
}

static double seconds(void) {
    struct timespec now;
    must(timespec_get(&now, TIME_UTC) == TIME_UTC, "no clock");
    return (double)now.tv_sec + 1e-9 * (double)now.tv_nsec;
}

static arrowstream_reader *new_reader(void) {
    arrowstream_limits limits = {.size = sizeof limits};
    arrowstream_reader *reader = NULL;
    arrowstream_limits_standard(&limits);
    arrowstream_reader_open(&limits, &reader);
    must(reader != NULL, "out of memory");
    return reader;
}

static arrowstream_writer *new_writer(void) {
    arrowstream_limits limits = {.size = sizeof limits};
    arrowstream_writer *writer = NULL;
    arrowstream_limits_standard(&limits);
    arrowstream_writer_open(&limits, &writer);
    must(writer != NULL, "out of memory");
    uint32_t status = arrowstream_writer_schema(writer, (const uint8_t *)schema, strlen(schema));
    must(status == ARROWSTREAM_OK, "the schema is refused");
    return writer;
}

/* The batch of a stream with one row. */
static arrowstream_batch *one_batch(void) {
    static uint8_t bytes[4096];
    arrowstream_writer *writer = new_writer();
    arrowstream_reader *reader = new_reader();
    arrowstream_batch *batch = NULL;
    arrowstream_progress now = {.size = sizeof now};
    must(arrowstream_writer_int(writer, 1) == ARROWSTREAM_OK
             && arrowstream_writer_row(writer) == ARROWSTREAM_OK
             && arrowstream_writer_send(writer) == ARROWSTREAM_OK,
         "the row is refused");
    size_t length = 0;
    while (arrowstream_writer_ready(writer) > 0)
        length += arrowstream_writer_take(writer, bytes + length, sizeof bytes - length);
    for (size_t from = 0; now.event != ARROWSTREAM_BATCH; from += now.taken)
        must(arrowstream_reader_feed(reader, bytes + from, length - from, &now) == ARROWSTREAM_OK
                 && now.taken > 0,
             "the stream is refused");
    must(arrowstream_reader_take(reader, &batch) == ARROWSTREAM_OK, "out of memory");
    arrowstream_reader_free(reader);
    arrowstream_writer_free(writer);
    return batch;
}

static double rows_nanoseconds(void) {
    arrowstream_batch *batch = one_batch();
    size_t rows = 0;
    double from = seconds();
    for (size_t call = 0; call < CALLS; call++) rows += arrowstream_batch_rows(batch);
    double taken = seconds() - from;
    must(rows == CALLS, "other rows");
    arrowstream_batch_free(batch);
    return 1e9 * taken / CALLS;
}

/* Each thousandth cell is followed by the end of the row, which is too wide and is dropped. */
static double int_nanoseconds(void) {
    arrowstream_writer *writer = new_writer();
    double from = seconds();
    for (int64_t call = 1; call <= CALLS; call++) {
        must(arrowstream_writer_int(writer, call) == ARROWSTREAM_OK, "the cell is refused");
        if (call % CELLS == 0)
            must(arrowstream_writer_row(writer) == ARROWSTREAM_WRITE + 2, "a row of cells");
    }
    double taken = seconds() - from;
    arrowstream_writer_free(writer);
    return 1e9 * taken / CALLS;
}

static void check(void) {
    static uint8_t bytes[PIECE];
    arrowstream_reader *reader = new_reader();
    arrowstream_progress now = {.size = sizeof now};
    size_t rows = 0, length = 0;
    while (now.event != ARROWSTREAM_END && (length = fread(bytes, 1, sizeof bytes, stdin)) > 0)
        for (size_t from = 0; from < length && now.event != ARROWSTREAM_END; from += now.taken) {
            uint32_t status = arrowstream_reader_feed(reader, bytes + from, length - from, &now);
            must(status == ARROWSTREAM_OK, "the stream is refused");
            if (now.event != ARROWSTREAM_BATCH) continue;
            arrowstream_batch *batch = NULL;
            must(arrowstream_reader_take(reader, &batch) == ARROWSTREAM_OK, "out of memory");
            rows += arrowstream_batch_rows(batch);
            arrowstream_reader_reuse(reader, batch);
        }
    must(arrowstream_reader_close(reader, &now) == ARROWSTREAM_OK, "the stream is cut off");
    arrowstream_reader_free(reader);
    printf("%zu rows\n", rows);
}

static int read_input(void *source, uint8_t *bytes, size_t length, size_t *count) {
    *count = fread(bytes, 1, length, source);
    return 0;
}

static void export_stream(void) {
    arrowstream_limits limits = {.size = sizeof limits};
    struct ArrowArrayStream stream;
    struct ArrowArray array;
    int64_t rows = 0;
    arrowstream_limits_standard(&limits);
    must(arrowstream_export_stream(&limits, read_input, NULL, stdin, &stream, NULL) == 0,
         "out of memory");
    while (stream.get_next(&stream, &array) == 0 && array.release) {
        rows += array.length;
        array.release(&array);
    }
    must(stream.get_last_error(&stream) == NULL, "the stream is refused");
    stream.release(&stream);
    printf("%lld rows\n", (long long)rows);
}

int main(int count, char **words) {
    if (count == 2 && strcmp(words[1], "check") == 0) {
        check();
        return 0;
    }
    if (count == 2 && strcmp(words[1], "export") == 0) {
        export_stream();
        return 0;
    }
    if (count != 1) return 2;
    printf("arrowstream_batch_rows %.1f ns\n", rows_nanoseconds());
    printf("arrowstream_writer_int %.1f ns\n", int_nanoseconds());
    return 0;
}
