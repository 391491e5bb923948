/* Test equipment: makes every call of include/arrowstream.h for streams that come as lines of
 * hexadecimal digits on standard input.
 *
 *     c_calls answers PIECE    prints what the calls answer for each stream
 *     c_calls growths PIECE    refuses each growth of memory of each stream in turn
 *
 * A stream is fed PIECE bytes at a time. The line of an accepted stream is `0`, how it ended, its
 * bytes, batches and rows, a digest of all columns and their buffers, and its schema. That of a
 * refused stream is the status and the line of the refusal. With a refused growth each call answers
 * as without it, or that memory ran out. The program is linked with --wrap=malloc and
 * --wrap=realloc. */
#include "arrowstream.h"

#include <inttypes.h>
#include <stdio.h>
#include <stdlib.h>
#include <string.h>

enum { MOST = 1 << 20, MOST_STEPS = 80, FILL = 0xa5 };

void *__real_malloc(size_t count);
void *__real_realloc(void *block, size_t count);
void *__wrap_malloc(size_t count);
void *__wrap_realloc(void *block, size_t count);

/* The growths that were asked for, the one that is refused, and the answers of out of memory. */
static unsigned long asked, refused, told;

static int is_refused(void) { return ++asked == refused; }

void *__wrap_malloc(size_t count) { return is_refused() ? NULL : __real_malloc(count); }

void *__wrap_realloc(void *block, size_t count) {
    return is_refused() ? NULL : __real_realloc(block, count);
}

static void stop(const char *why) {
    fprintf(stderr, "c_calls: %s, growth %lu\n", why, refused);
    exit(1);
}

/* Whether a call has the answer that is expected. It may also say that memory ran out. */
static int is_done(uint32_t status, uint32_t expected) {
    told += status == ARROWSTREAM_OUT_OF_MEMORY;
    if (status != expected && status != ARROWSTREAM_OUT_OF_MEMORY) stop("another status");
    return status == expected;
}

/* What a stream was read as. */
typedef struct {
    uint64_t event, digest;
    size_t bytes, batches, rows;
} answer;

static void mix(answer *all, const void *bytes, size_t count) {
    for (size_t i = 0; i < count; i++)
        all->digest = (all->digest ^ ((const uint8_t *)bytes)[i]) * UINT64_C(0x100000001b3);
}

/* The bytes that one call copies, in memory of exactly their number. The caller frees them. */
typedef struct {
    uint8_t *bytes;
    size_t count;
} copied;

static copied room_for(size_t count) {
    copied room = {__real_malloc(count + 1), count};
    if (!room.bytes) stop("no memory");
    memset(room.bytes, FILL, count + 1);
    return room;
}

static void check_room(const copied *room) {
    if (room->bytes[room->count] != FILL) stop("a byte past the end");
}

typedef uint32_t reader_text(const arrowstream_reader *, uint8_t *, size_t, size_t *);
typedef uint32_t batch_text(const arrowstream_batch *, uint8_t *, size_t, size_t *);

/* Calls first with no room, and then with as much as is wanted. */
static copied text_of(arrowstream_reader *reader, reader_text *of_reader, arrowstream_batch *batch,
                      batch_text *of_batch, uint32_t expected) {
    size_t wanted = 0, again = 0;
    uint32_t status =
        reader ? of_reader(reader, NULL, 0, &wanted) : of_batch(batch, NULL, 0, &wanted);
    if (!is_done(status, expected) && wanted != 0) stop("a text without memory");
    copied text = room_for(wanted);
    status = reader ? of_reader(reader, text.bytes, wanted, &again)
                    : of_batch(batch, text.bytes, wanted, &again);
    check_room(&text);
    if (is_done(status, expected) && again != wanted && wanted != 0) stop("another size");
    return text;
}

/* Copies a text of a field, first with no room, and mixes it in. */
static void read_field_text(arrowstream_reader *reader, const uint64_t *path, size_t steps,
                            uint32_t number, uint64_t pair, uint32_t expected, answer *all) {
    size_t wanted = 0, again = 0;
    uint32_t status =
        arrowstream_reader_field_text(reader, path, steps, number, pair, NULL, 0, &wanted);
    if (!is_done(status, expected) && wanted != 0) stop("a text of a field without memory");
    copied text = room_for(wanted);
    status = arrowstream_reader_field_text(reader, path, steps, number, pair, text.bytes, wanted,
                                           &again);
    check_room(&text);
    if (is_done(status, expected) && again != wanted && wanted != 0)
        stop("another size of a text of a field");
    mix(all, text.bytes, text.count);
    free(text.bytes);
}

/* Reads the field at a path and all below it. */
static void read_field(arrowstream_reader *reader, uint64_t *path, size_t steps, answer *all) {
    arrowstream_field field = {.size = sizeof field}, none = {.size = sizeof none};
    is_done(arrowstream_reader_field(reader, path, steps, &field), ARROWSTREAM_OK);
    mix(all, &field, sizeof field);
    uint32_t values = field.index_bits ? ARROWSTREAM_OK : ARROWSTREAM_ABSENT;
    read_field_text(reader, path, steps, ARROWSTREAM_FIELD_NAME, 0, ARROWSTREAM_OK, all);
    read_field_text(reader, path, steps, ARROWSTREAM_FIELD_FORMAT, 0, ARROWSTREAM_OK, all);
    read_field_text(reader, path, steps, ARROWSTREAM_FIELD_VALUES_FORMAT, 0, values, all);
    read_field_text(reader, path, steps, 5, 0, ARROWSTREAM_ABSENT, all);
    for (uint64_t pair = 0; pair <= field.pairs; pair++) {
        uint32_t expected = pair < field.pairs ? ARROWSTREAM_OK : ARROWSTREAM_ABSENT;
        read_field_text(reader, path, steps, ARROWSTREAM_FIELD_KEY, pair, expected, all);
        read_field_text(reader, path, steps, ARROWSTREAM_FIELD_VALUE, pair, expected, all);
    }
    for (path[steps] = 0; path[steps] < field.children; path[steps]++)
        read_field(reader, path, steps + 1, all);
    is_done(arrowstream_reader_field(reader, path, steps + 1, &none), ARROWSTREAM_ABSENT);
}

static void read_buffer(arrowstream_batch *batch, const uint64_t *path, size_t steps,
                        uint32_t buffer, size_t count, answer *all) {
    size_t wanted = 0;
    copied room = room_for(count);
    if (count > 0) {
        is_done(arrowstream_batch_buffer(batch, path, steps, buffer, NULL, 0, &wanted), 0);
        if (wanted != count) stop("another size without room");
        copied less = room_for(count - 1);
        is_done(
            arrowstream_batch_buffer(batch, path, steps, buffer, less.bytes, count - 1, &wanted),
            0);
        if (wanted != count || less.bytes[0] != FILL) stop("a buffer that is cut");
        free(less.bytes);
    }
    is_done(arrowstream_batch_buffer(batch, path, steps, buffer, room.bytes, count, &wanted),
            ARROWSTREAM_OK);
    if (wanted != count) stop("another size of a buffer");
    check_room(&room);
    mix(all, room.bytes, count);
    free(room.bytes);
}

static void read_column(arrowstream_batch *batch, uint64_t *path, size_t steps, answer *all) {
    arrowstream_column column = {.size = sizeof column}, none = {.size = sizeof none};
    uint8_t byte = 0;
    size_t wanted = 1;
    is_done(arrowstream_batch_column(batch, path, steps, &column), ARROWSTREAM_OK);
    mix(all, &column, sizeof column);
    read_buffer(batch, path, steps, ARROWSTREAM_BUFFER_VALIDITY, column.validity, all);
    read_buffer(batch, path, steps, ARROWSTREAM_BUFFER_OFFSETS, column.offsets, all);
    read_buffer(batch, path, steps, ARROWSTREAM_BUFFER_VALUES, column.values, all);
    is_done(arrowstream_batch_buffer(batch, path, steps, 3, &byte, 1, &wanted), ARROWSTREAM_ABSENT);
    if (wanted != 0) stop("a fourth buffer");
    for (size_t child = 0; child < column.children; child++) {
        path[steps] = child;
        read_column(batch, path, steps + 1, all);
    }
    path[steps] = column.children;
    is_done(arrowstream_batch_column(batch, path, steps + 1, &none), ARROWSTREAM_ABSENT);
    path[steps] = ARROWSTREAM_DICTIONARY;
    if (arrowstream_batch_column(batch, path, steps + 1, &none) == ARROWSTREAM_OK) {
        if (column.layout.kind != ARROWSTREAM_LAYOUT_INDICES) stop("a dictionary of no indices");
        read_column(batch, path, steps + 1, all);
    }
}

static void read_batch(arrowstream_batch *batch, answer *all) {
    uint64_t path[MOST_STEPS];
    size_t wanted = 0;
    arrowstream_column column = {.size = sizeof column};
    copied pairs = text_of(NULL, NULL, batch, arrowstream_batch_pairs, ARROWSTREAM_OK);
    mix(all, pairs.bytes, pairs.count);
    free(pairs.bytes);
    for (path[0] = 0; path[0] < arrowstream_batch_columns(batch); path[0]++)
        read_column(batch, path, 1, all);
    is_done(arrowstream_batch_column(batch, path, 1, &column), ARROWSTREAM_ABSENT);
    is_done(arrowstream_batch_column(batch, NULL, 0, &column), ARROWSTREAM_ABSENT);
    is_done(arrowstream_batch_buffer(batch, NULL, 0, ARROWSTREAM_BUFFER_VALUES, NULL, 0, &wanted),
            ARROWSTREAM_ABSENT);
    column.size--;
    is_done(arrowstream_batch_column(batch, NULL, 0, &column), ARROWSTREAM_MISUSE);
    all->rows += arrowstream_batch_rows(batch);
}

/* Reads a batch by a clone, or without memory for one by itself. */
static void read_clone(arrowstream_batch *batch, answer *all) {
    arrowstream_batch *copy = NULL;
    int is_made = is_done(arrowstream_batch_clone(batch, &copy), ARROWSTREAM_OK);
    if (is_made != (copy != NULL)) stop("a clone and another status");
    read_batch(copy ? copy : batch, all);
    arrowstream_batch_free(copy);
}

/* Takes the batch that came. Each batch is read when the next one has come, and given back. */
static arrowstream_batch *take(arrowstream_reader *reader, arrowstream_batch *last, answer *all) {
    arrowstream_batch *batch = NULL, *none = NULL;
    int is_taken = is_done(arrowstream_reader_take(reader, &batch), ARROWSTREAM_OK);
    if (is_taken != (batch != NULL)) stop("a batch and another status");
    if (arrowstream_reader_take(reader, &none) != ARROWSTREAM_ABSENT || none) stop("a batch twice");
    if (last) {
        read_clone(last, all);
        arrowstream_reader_reuse(reader, last);
    }
    arrowstream_reader_reuse(reader, NULL);
    all->batches++;
    return batch;
}

static uint32_t feed(arrowstream_reader *reader, const uint8_t *bytes, size_t count, size_t piece,
                     answer *all, arrowstream_batch **last) {
    arrowstream_progress now = {.size = sizeof now};
    is_done(arrowstream_reader_feed(reader, NULL, 0, &now), ARROWSTREAM_OK);
    if (now.taken != 0 || now.wanted == 0) stop("no bytes are wanted");
    while (count > 0 && now.event != ARROWSTREAM_END) {
        size_t length = count < piece ? count : piece;
        uint32_t status = arrowstream_reader_feed(reader, bytes, length, &now);
        if (status != ARROWSTREAM_OK) {
            if (now.taken != 0 || now.wanted != 0) stop("a refusal that takes bytes");
            if (arrowstream_reader_feed(reader, bytes, 1, &now) != ARROWSTREAM_FAILED)
                stop("it goes on");
            return status;
        }
        if (now.taken > length || (now.event == ARROWSTREAM_NOTHING && now.taken != length))
            stop("another count of bytes");
        bytes += now.taken;
        count -= now.taken;
        all->bytes += now.taken;
        if (now.event == ARROWSTREAM_BATCH) *last = take(reader, *last, all);
    }
    uint32_t status = arrowstream_reader_close(reader, &now);
    all->event = now.event;
    return status;
}

static void print(const answer *all, uint32_t status, const copied *text) {
    printf("%u ", status);
    if (status == ARROWSTREAM_OK)
        printf("%s %zu bytes %zu batches %zu rows %016" PRIx64 " ",
               all->event == ARROWSTREAM_END ? "mark" : "closed", all->bytes, all->batches,
               all->rows, all->digest);
    printf("%.*s\n", (int)text->count, (const char *)text->bytes);
}

/* Reads a stream once. Returns the status of its end or of its refusal. */
static uint32_t read_stream(const uint8_t *bytes, size_t count, size_t piece, int prints) {
    answer all = {0, UINT64_C(0xcbf29ce484222325), 0, 0, 0};
    arrowstream_limits limits = {.size = sizeof limits};
    arrowstream_reader *reader = NULL;
    arrowstream_batch *last = NULL;
    arrowstream_limits_standard(&limits);
    arrowstream_reader_open(&limits, &reader);
    if (!reader) {
        told++;
        return ARROWSTREAM_OUT_OF_MEMORY;
    }
    arrowstream_field none = {.size = sizeof none};
    is_done(arrowstream_reader_field(reader, NULL, 0, &none), ARROWSTREAM_ABSENT);
    uint32_t status = feed(reader, bytes, count, piece, &all, &last);
    told += status == ARROWSTREAM_OUT_OF_MEMORY;
    copied line = text_of(reader, arrowstream_reader_line, NULL, NULL,
                          status == ARROWSTREAM_OK ? ARROWSTREAM_ABSENT : ARROWSTREAM_OK);
    copied schema = {NULL, 0};
    if (status == ARROWSTREAM_OK) {
        uint64_t path[MOST_STEPS];
        schema = text_of(reader, arrowstream_reader_schema, NULL, NULL, ARROWSTREAM_OK);
        read_field(reader, path, 0, &all);
        read_field_text(reader, NULL, 0, ARROWSTREAM_FIELD_FORMAT, 0, ARROWSTREAM_OK, &all);
    }
    arrowstream_reader_free(reader);
    if (last) {
        read_batch(last, &all);
        arrowstream_batch_free(last);
    }
    if (prints) print(&all, status, status == ARROWSTREAM_OK ? &schema : &line);
    free(line.bytes);
    free(schema.bytes);
    return status;
}

static void refuse_growths(const uint8_t *bytes, size_t count, size_t piece) {
    asked = refused = told = 0;
    uint32_t expected = read_stream(bytes, count, piece, 0);
    unsigned long all = asked;
    if (told != 0) stop("out of memory without a refusal");
    for (refused = 1; refused <= all; refused++) {
        asked = told = 0;
        uint32_t status = read_stream(bytes, count, piece, 0);
        if (told == 0) stop("a refused growth that no call reports");
        if (status != expected && status != ARROWSTREAM_OUT_OF_MEMORY) stop("another end");
    }
    refused = 0;
    printf("%lu growths\n", all);
}

/* The bytes of a line of hexadecimal digits. They replace the digits. */
static size_t decode(char *line) {
    size_t count = strcspn(line, "\n") / 2;
    for (size_t i = 0; i < count; i++) {
        char digits[3] = {line[2 * i], line[2 * i + 1], 0};
        ((uint8_t *)line)[i] = (uint8_t)strtoul(digits, NULL, 16);
    }
    return count;
}

static int is_nowhere(const arrowstream_progress *now) {
    return now->taken == 0 && now->wanted == 0 && now->messages == 0
           && now->event == ARROWSTREAM_NOTHING;
}

/* Makes each call at NULL. */
static void call_at_null(void) {
    const uint64_t path[] = {0};
    arrowstream_progress fed = {sizeof fed, 1, 1, 1, 1}, closed = fed;
    arrowstream_batch *batch = (arrowstream_batch *)&fed, *copy = batch;
    arrowstream_column column;
    uint8_t byte = FILL, as_it_was[sizeof column];
    size_t wanted[4] = {1, 1, 1, 1};
    memset(&column, FILL, sizeof column);
    memcpy(as_it_was, &column, sizeof column);
    if (arrowstream_reader_feed(NULL, &byte, 1, &fed) != ARROWSTREAM_MISUSE || !is_nowhere(&fed)
        || arrowstream_reader_close(NULL, &closed) != ARROWSTREAM_MISUSE || !is_nowhere(&closed))
        stop("a reader at NULL");
    if (arrowstream_reader_take(NULL, &batch) != ARROWSTREAM_MISUSE || batch)
        stop("a batch of NULL");
    if (arrowstream_batch_clone(NULL, &copy) != ARROWSTREAM_MISUSE || copy)
        stop("a clone of NULL");
    arrowstream_reader_reuse(NULL, NULL);
    if (arrowstream_reader_schema(NULL, &byte, 1, &wanted[0]) != ARROWSTREAM_MISUSE
        || arrowstream_reader_line(NULL, &byte, 1, &wanted[1]) != ARROWSTREAM_MISUSE
        || arrowstream_batch_pairs(NULL, &byte, 1, &wanted[2]) != ARROWSTREAM_MISUSE
        || arrowstream_batch_buffer(NULL, path, 1, 0, &byte, 1, &wanted[3]) != ARROWSTREAM_MISUSE)
        stop("a text of NULL");
    if (wanted[0] || wanted[1] || wanted[2] || wanted[3] || byte != FILL) stop("bytes of NULL");
    if (arrowstream_batch_rows(NULL) != 0 || arrowstream_batch_columns(NULL) != 0)
        stop("a count of NULL");
    if (arrowstream_batch_column(NULL, path, 1, &column) != ARROWSTREAM_MISUSE
        || memcmp(as_it_was, &column, sizeof column) != 0)
        stop("a column of NULL");
    arrowstream_field field = {sizeof field, 7, 7, 7, 7, 7, 7, 7};
    if (arrowstream_reader_field(NULL, path, 1, &field) != ARROWSTREAM_MISUSE || field.pairs != 7
        || arrowstream_reader_field_text(NULL, path, 1, 0, 0, &byte, 1, &wanted[0])
               != ARROWSTREAM_MISUSE
        || wanted[0] != 0 || byte != FILL)
        stop("a field of NULL");
    arrowstream_reader_free(NULL);
    arrowstream_batch_free(NULL);
}

/* Makes each call that has a struct with `size` one byte too small: nothing else is looked at. */
static void call_with_small_structs(void) {
    arrowstream_limits limits = {.size = sizeof limits};
    arrowstream_progress now = {.size = sizeof now - 1}, was = now;
    arrowstream_field field = {.size = sizeof field - 1};
    arrowstream_reader *reader = NULL, *none = (arrowstream_reader *)&now;
    arrowstream_writer *writer = (arrowstream_writer *)&now;
    if (arrowstream_limits_standard(&limits) != ARROWSTREAM_OK || limits.depth != 64)
        stop("the standard limits");
    arrowstream_reader_open(&limits, &reader);
    limits.size--;
    limits.depth = 1;
    if (arrowstream_limits_standard(&limits) != ARROWSTREAM_MISUSE || limits.depth != 1)
        stop("small limits");
    arrowstream_reader_open(&limits, &none);
    arrowstream_writer_open(&limits, &writer);
    if (!reader || none || writer) stop("a reader or writer of small limits");
    if (arrowstream_reader_feed(reader, (const uint8_t *)"none", 4, &now) != ARROWSTREAM_MISUSE
        || arrowstream_reader_close(reader, &now) != ARROWSTREAM_MISUSE
        || arrowstream_reader_close(NULL, &now) != ARROWSTREAM_MISUSE
        || memcmp(&now, &was, sizeof now) != 0)
        stop("a small progress");
    if (arrowstream_reader_field(reader, NULL, 0, &field) != ARROWSTREAM_MISUSE)
        stop("a small field");
    now.size++;
    if (arrowstream_reader_feed(reader, NULL, 0, &now) != ARROWSTREAM_OK || now.wanted != 4)
        stop("a reader after a small progress");
    arrowstream_reader_free(reader);
}

int main(int count, char **words) {
    static char line[2 * MOST + 2];
    if (count != 3) return 2;
    size_t piece = strtoull(words[2], NULL, 10);
    call_at_null();
    call_with_small_structs();
    while (fgets(line, sizeof line, stdin)) {
        size_t bytes = decode(line);
        uint8_t *stream = __real_malloc(bytes + 1);
        if (!stream) stop("no memory");
        memcpy(stream, line, bytes);
        if (strcmp(words[1], "growths") == 0) refuse_growths(stream, bytes, piece);
        else read_stream(stream, bytes, piece, 1);
        free(stream);
    }
    return 0;
}
