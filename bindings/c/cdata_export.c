/* Exports schemas, batches and streams by the Arrow C data interface. See arrowstream_cdata.h. */
#include "arrowstream_cdata.h"

#include <errno.h>
#include <stdatomic.h>
#include <stdio.h>
#include <stdlib.h>
#include <string.h>

/* A path has a number for each level of nesting, of which there are 64 at most, and one for the
 * values of a dictionary. */
enum { MOST_STEPS = 72, PIECE = 1 << 20, ALIGNMENT = 64 };

static int fail(arrowstream_message *message, int error, const char *line) {
    if (message) snprintf(message->text, sizeof message->text, "%s", line);
    return error;
}

static int no_memory(arrowstream_message *message) {
    return fail(message, ENOMEM, "out of memory");
}

/* The error of a reader or writer that refused a call, with the line that it gives. */
static int refused(arrowstream_message *message, uint32_t status, const void *handle,
                   uint32_t (*line)(const void *, uint8_t *, size_t, size_t *)) {
    uint8_t text[sizeof message->text] = "";
    size_t wanted = 0;
    if (status == ARROWSTREAM_OUT_OF_MEMORY || status == ARROWSTREAM_WRITE + 9
        || status == ARROWSTREAM_WRITE_OUT_OF_MEMORY)
        return no_memory(message);
    if (line(handle, text, sizeof text - 1, &wanted) != ARROWSTREAM_OK || wanted >= sizeof text)
        return fail(message, EINVAL, "refused");
    text[wanted] = 0;
    return fail(message, EINVAL, (const char *)text);
}

static uint32_t line_of_reader(const void *reader, uint8_t *text, size_t length, size_t *wanted) {
    return arrowstream_reader_line(reader, text, length, wanted);
}

static uint32_t line_of_writer(const void *writer, uint8_t *text, size_t length, size_t *wanted) {
    return arrowstream_writer_line(writer, text, length, wanted);
}

/* ---- schemas --------------------------------------------------------------------------------- */

static void release_schema(struct ArrowSchema *schema) {
    for (int64_t i = 0; i < schema->n_children; i++) {
        struct ArrowSchema *child = schema->children[i];
        if (child && child->release) child->release(child);
        free(child);
    }
    if (schema->dictionary && schema->dictionary->release)
        schema->dictionary->release(schema->dictionary);
    free(schema->dictionary);
    free(schema->children);
    free((char *)schema->format);
    free((char *)schema->name);
    free((char *)schema->metadata);
    schema->release = NULL;
}

typedef struct {
    const arrowstream_reader *reader;
    uint64_t path[MOST_STEPS];
    arrowstream_message *message;
} schema_source;

/* Copies a text of the field at a path, with a zero byte after it. */
static int copy_text(schema_source *from, size_t steps, uint32_t text, const char **out) {
    size_t length = 0, wanted = 0;
    char *copy = NULL;
    uint32_t status = arrowstream_reader_field_text(from->reader, from->path, steps, text, 0, NULL,
                                                    0, &length);
    if (status == ARROWSTREAM_OK && !(copy = malloc(length + 1))) return no_memory(from->message);
    if (status == ARROWSTREAM_OK)
        status = arrowstream_reader_field_text(from->reader, from->path, steps, text, 0,
                                               (uint8_t *)copy, length, &wanted);
    *out = copy;
    if (status == ARROWSTREAM_OUT_OF_MEMORY) return no_memory(from->message);
    if (status != ARROWSTREAM_OK) return fail(from->message, EINVAL, "no such field");
    copy[length] = 0;
    if (memchr(copy, 0, length))
        return fail(from->message, EINVAL, "a name or a time zone has a zero byte");
    return 0;
}

/* Copies the text of one side of a pair with its length before it, if there is room, and adds the
 * number of bytes to `used`. */
static int put_side(schema_source *from, size_t steps, uint32_t side, uint64_t pair, char *bytes,
                    size_t room, size_t *used) {
    size_t length = 0, at = *used + sizeof(int32_t);
    uint32_t status = arrowstream_reader_field_text(
        from->reader, from->path, steps, side, pair, bytes ? (uint8_t *)bytes + at : NULL,
        bytes ? room - at : 0, &length);
    if (status != ARROWSTREAM_OK) return no_memory(from->message);
    int32_t number = (int32_t)length;
    if (bytes) memcpy(bytes + *used, &number, sizeof number);
    *used = at + length;
    return 0;
}

/* The pairs of a field: their number, and the length and the bytes of each key and value. */
static int copy_pairs(schema_source *from, size_t steps, size_t pairs, const char **out) {
    char *bytes = NULL;
    size_t room = 0;
    for (int pass = 0; pass < 2; pass++) {
        size_t used = sizeof(int32_t);
        for (uint64_t pair = 0; pair < pairs; pair++)
            for (uint32_t side = ARROWSTREAM_FIELD_KEY; side <= ARROWSTREAM_FIELD_VALUE; side++) {
                int error = put_side(from, steps, side, pair, bytes, room, &used);
                if (error) return error;
            }
        if (pass == 1) break;
        room = used;
        if (!(bytes = malloc(room))) return no_memory(from->message);
        *out = bytes;
    }
    int32_t number = (int32_t)pairs;
    memcpy(bytes, &number, sizeof number);
    return 0;
}

static int export_field(schema_source *from, size_t steps, struct ArrowSchema *out);

/* Exports the children of a field, and the values of its dictionary as one more field. */
static int export_below(schema_source *from, size_t steps, const arrowstream_field *facts,
                        struct ArrowSchema *out) {
    int error = 0;
    if (facts->children > 0) {
        if (steps == MOST_STEPS) return fail(from->message, EINVAL, "too many levels");
        if (!(out->children = calloc(facts->children, sizeof *out->children)))
            return no_memory(from->message);
    }
    for (size_t i = 0; i < facts->children && !error; i++) {
        struct ArrowSchema *child = calloc(1, sizeof *child);
        if (!child) return no_memory(from->message);
        out->children[out->n_children++] = child;
        from->path[steps] = i;
        error = export_field(from, steps + 1, child);
    }
    if (error || facts->index_bits == 0) return error;
    if (!(out->dictionary = calloc(1, sizeof *out->dictionary))) return no_memory(from->message);
    out->dictionary->release = release_schema;
    out->dictionary->flags = ARROW_FLAG_NULLABLE;
    if (!(out->dictionary->name = calloc(1, 1))) return no_memory(from->message);
    return copy_text(from, steps, ARROWSTREAM_FIELD_VALUES_FORMAT, &out->dictionary->format);
}

/* Exports the field at a path to zeroed memory. What was exported is released by the caller, also
 * after an error. */
static int export_field(schema_source *from, size_t steps, struct ArrowSchema *out) {
    arrowstream_field facts = {.size = sizeof facts};
    out->release = release_schema;
    if (arrowstream_reader_field(from->reader, from->path, steps, &facts) != ARROWSTREAM_OK)
        return fail(from->message, EINVAL, "the reader has no schema");
    out->flags = (facts.is_nullable ? ARROW_FLAG_NULLABLE : 0)
        | (facts.is_ordered ? ARROW_FLAG_DICTIONARY_ORDERED : 0);
    int error = copy_text(from, steps, ARROWSTREAM_FIELD_NAME, &out->name);
    if (!error) error = copy_text(from, steps, ARROWSTREAM_FIELD_FORMAT, &out->format);
    if (!error && facts.pairs > 0) error = copy_pairs(from, steps, facts.pairs, &out->metadata);
    return error ? error : export_below(from, steps, &facts, out);
}

int arrowstream_export_schema(const arrowstream_reader *reader, struct ArrowSchema *out,
                              arrowstream_message *message) {
    schema_source from = {.reader = reader, .message = message};
    memset(out, 0, sizeof *out);
    int error = export_field(&from, 0, out);
    if (error) release_schema(out);
    return error;
}

/* ---- arrays ---------------------------------------------------------------------------------- */

/* One piece of memory for an exported batch: this head, arrays, pointers and buffers. It is freed
 * with the last array in it. */
typedef struct {
    atomic_size_t users;
} array_block;

/* Memory that is given out from the beginning, or only counted if there is none. */
typedef struct {
    char *base;
    size_t used;
    size_t arrays;
} arena;

static void *take(arena *from, size_t size, size_t alignment) {
    from->used = (from->used + alignment - 1) / alignment * alignment;
    char *at = from->base ? from->base + from->used : NULL;
    from->used += size;
    return at;
}

static void release_array(struct ArrowArray *array) {
    for (int64_t i = 0; i < array->n_children; i++)
        if (array->children[i]->release) array->children[i]->release(array->children[i]);
    if (array->dictionary && array->dictionary->release)
        array->dictionary->release(array->dictionary);
    array_block *block = array->private_data;
    array->release = NULL;
    if (atomic_fetch_sub(&block->users, 1) == 1) free(block);
}

typedef struct {
    const arrowstream_batch *batch;
    uint64_t path[MOST_STEPS];
    arena memory;
} array_source;

/* The number of buffers of a type: none for nulls, 1 for structs and fixed-size lists, 3 for texts
 * and bytes, else 2. */
static int64_t buffers_of(const char *format) {
    if (strcmp(format, "n") == 0) return 0;
    if (strcmp(format, "+s") == 0 || strncmp(format, "+w", 2) == 0) return 1;
    return strcmp(format, "u") == 0 || strcmp(format, "z") == 0 ? 3 : 2;
}

/* Copies a buffer to memory with at least as many bytes, followed by zeros. */
static const void *copy_buffer(array_source *from, size_t steps, uint32_t buffer, size_t length,
                               size_t least) {
    size_t wanted = 0, size = length > least ? length : least;
    uint8_t *bytes = take(&from->memory, (size + ALIGNMENT - 1) / ALIGNMENT * ALIGNMENT, ALIGNMENT);
    if (bytes)
        arrowstream_batch_buffer(from->batch, from->path, steps, buffer, bytes, length, &wanted);
    return bytes;
}

/* Copies the buffers of a column, or only counts them. */
static void copy_buffers(array_source *from, size_t steps, const arrowstream_column *facts,
                         int64_t count, struct ArrowArray *out) {
    const void **buffers = take(&from->memory, (size_t)count * sizeof *buffers, sizeof *buffers);
    const void *copies[3] = {NULL, NULL, NULL};
    int64_t last = count - 1;
    if (facts->nulls > 0 && count > 0)
        copies[0] = copy_buffer(from, steps, ARROWSTREAM_BUFFER_VALIDITY, facts->validity, 1);
    if (facts->layout.kind == ARROWSTREAM_LAYOUT_LISTS || count == 3)
        copies[1] = copy_buffer(from, steps, ARROWSTREAM_BUFFER_OFFSETS, facts->offsets,
                                sizeof(int32_t));
    if (last > 0 && facts->layout.kind != ARROWSTREAM_LAYOUT_LISTS)
        copies[last] = copy_buffer(from, steps, ARROWSTREAM_BUFFER_VALUES, facts->values, 1);
    if (!from->memory.base) return;
    memcpy(buffers, copies, (size_t)count * sizeof *buffers);
    out->n_buffers = count;
    out->buffers = buffers;
}

static void export_column(array_source *from, size_t steps, const struct ArrowSchema *schema,
                          struct ArrowArray *out);

/* Exports children, and the values of a dictionary, or only counts them. */
static void export_children(array_source *from, size_t steps, const struct ArrowSchema *schema,
                            struct ArrowArray *out) {
    size_t count = (size_t)schema->n_children;
    struct ArrowArray **children = take(&from->memory, count * sizeof *children, sizeof *children);
    for (size_t i = 0; i < count; i++) {
        struct ArrowArray *child = take(&from->memory, sizeof *child, sizeof(void *));
        if (child) children[i] = child;
        from->path[steps] = i;
        export_column(from, steps + 1, schema->children[i], child);
    }
    struct ArrowArray *values = NULL;
    if (schema->dictionary) {
        values = take(&from->memory, sizeof *values, sizeof(void *));
        from->path[steps] = ARROWSTREAM_DICTIONARY;
        export_column(from, steps + 1, schema->dictionary, values);
    }
    if (!out) return;
    out->n_children = schema->n_children;
    out->children = children;
    out->dictionary = values;
}

/* Notes an array of the block. */
static void begin_array(array_source *from, size_t length, size_t nulls, struct ArrowArray *out) {
    from->memory.arrays++;
    if (!out) return;
    *out = (struct ArrowArray){.length = (int64_t)length,
                               .null_count = (int64_t)nulls,
                               .release = release_array,
                               .private_data = from->memory.base};
}

/* Exports the column at a path, or only counts it. A dictionary without values has no column. */
static void export_column(array_source *from, size_t steps, const struct ArrowSchema *schema,
                          struct ArrowArray *out) {
    arrowstream_column facts = {.size = sizeof facts};
    arrowstream_batch_column(from->batch, from->path, steps, &facts);
    int64_t count = buffers_of(schema->format);
    begin_array(from, facts.slots, count == 0 ? facts.slots : facts.nulls, out);
    copy_buffers(from, steps, &facts, count, out);
    export_children(from, steps, schema, out);
}

/* Exports a whole batch, or only counts it. */
static void export_rows(array_source *from, const struct ArrowSchema *schema,
                        struct ArrowArray *out) {
    take(&from->memory, sizeof(array_block), ALIGNMENT);
    begin_array(from, arrowstream_batch_rows(from->batch), 0, out);
    const void **buffers = take(&from->memory, sizeof *buffers, sizeof *buffers);
    if (out) {
        buffers[0] = NULL;
        out->n_buffers = 1;
        out->buffers = buffers;
    }
    export_children(from, 0, schema, out);
}

/* Exports a batch as it is laid out. */
static int export_layout(const arrowstream_batch *batch, const struct ArrowSchema *schema,
                         struct ArrowArray *out, arrowstream_message *message) {
    array_source from = {.batch = batch};
    export_rows(&from, schema, NULL);
    size_t size = (from.memory.used + ALIGNMENT - 1) / ALIGNMENT * ALIGNMENT;
    array_block *block = aligned_alloc(ALIGNMENT, size);
    if (!block) return no_memory(message);
    memset(block, 0, size);
    atomic_init(&block->users, from.memory.arrays);
    from.memory = (arena){.base = (char *)block};
    export_rows(&from, schema, out);
    return 0;
}

/* ---- batches --------------------------------------------------------------------------------- */

/* The writer writes what is exported, and the reader reads it back. */
struct arrowstream_exporter {
    struct ArrowSchema schema;
    arrowstream_writer *writer;
    arrowstream_reader *reader;
    uint8_t *piece;
};

/* Has the reader take the bytes that the writer made. They end with an event of the reader. */
static int read_back(arrowstream_exporter *exporter, uint64_t event, arrowstream_message *message) {
    arrowstream_progress progress = {.size = sizeof progress};
    while (arrowstream_writer_ready(exporter->writer) > 0) {
        size_t count = arrowstream_writer_take(exporter->writer, exporter->piece, PIECE);
        for (size_t done = 0; done < count; done += progress.taken) {
            uint32_t status = arrowstream_reader_feed(exporter->reader, exporter->piece + done,
                                                      count - done, &progress);
            if (status != ARROWSTREAM_OK)
                return refused(message, status, exporter->reader, line_of_reader);
        }
    }
    return progress.event == event ? 0 : fail(message, EINVAL, "the batch was not read back");
}

static int begin_exporter(arrowstream_exporter *exporter, const uint8_t *schema, size_t length,
                          arrowstream_message *message) {
    arrowstream_limits most;
    memset(&most, 0xff, sizeof most);
    most.size = sizeof most;
    exporter->piece = malloc(PIECE);
    arrowstream_writer_open(&most, &exporter->writer);
    arrowstream_reader_open(&most, &exporter->reader);
    if (!exporter->piece || !exporter->writer || !exporter->reader) return no_memory(message);
    uint32_t status = arrowstream_writer_schema(exporter->writer, schema, length);
    if (status != ARROWSTREAM_OK)
        return refused(message, status, exporter->writer, line_of_writer);
    int error = read_back(exporter, ARROWSTREAM_SCHEMA, message);
    if (error) return error;
    return arrowstream_export_schema(exporter->reader, &exporter->schema, message);
}

int arrowstream_exporter_open(const uint8_t *schema, size_t length, arrowstream_exporter **out,
                              arrowstream_message *message) {
    arrowstream_exporter *exporter = calloc(1, sizeof *exporter);
    *out = NULL;
    if (!exporter) return no_memory(message);
    int error = begin_exporter(exporter, schema, length, message);
    if (error)
        arrowstream_exporter_free(exporter);
    else
        *out = exporter;
    return error;
}

int arrowstream_exporter_schema(const arrowstream_exporter *exporter, struct ArrowSchema *out,
                                arrowstream_message *message) {
    return arrowstream_export_schema(exporter->reader, out, message);
}

int arrowstream_exporter_batch(arrowstream_exporter *exporter, const arrowstream_batch *batch,
                               struct ArrowArray *out, arrowstream_message *message) {
    arrowstream_batch *copy = NULL;
    memset(out, 0, sizeof *out);
    uint32_t status = arrowstream_writer_columns(exporter->writer, batch);
    if (status != ARROWSTREAM_OK)
        return refused(message, status, exporter->writer, line_of_writer);
    int error = read_back(exporter, ARROWSTREAM_BATCH, message);
    if (error) return error;
    status = arrowstream_reader_take(exporter->reader, &copy);
    if (status != ARROWSTREAM_OK)
        return refused(message, status, exporter->reader, line_of_reader);
    error = export_layout(copy, &exporter->schema, out, message);
    arrowstream_reader_reuse(exporter->reader, copy);
    return error;
}

void arrowstream_exporter_free(arrowstream_exporter *exporter) {
    if (!exporter) return;
    if (exporter->schema.release) exporter->schema.release(&exporter->schema);
    arrowstream_writer_free(exporter->writer);
    arrowstream_reader_free(exporter->reader);
    free(exporter->piece);
    free(exporter);
}

/* ---- streams --------------------------------------------------------------------------------- */

typedef struct {
    arrowstream_reader *reader;
    arrowstream_exporter *exporter;
    arrowstream_progress progress;
    arrowstream_read read;
    void (*close)(void *source);
    void *source;
    uint8_t *piece;
    int error;
    arrowstream_message message;
} stream_state;

/* Opens the exporter of the schema that came. */
static int open_exporter(stream_state *state) {
    size_t length = 0, wanted = 0;
    if (arrowstream_reader_schema(state->reader, NULL, 0, &length) != ARROWSTREAM_OK)
        return no_memory(&state->message);
    uint8_t *text = malloc(length + 1);
    if (!text) return no_memory(&state->message);
    uint32_t status = arrowstream_reader_schema(state->reader, text, length, &wanted);
    int error = status == ARROWSTREAM_OK
        ? arrowstream_exporter_open(text, length, &state->exporter, &state->message)
        : no_memory(&state->message);
    free(text);
    return error;
}

/* Reads to the next event, and no byte after it. */
static int next_event(stream_state *state) {
    uint32_t status = ARROWSTREAM_OK;
    do {
        size_t size = state->progress.wanted < PIECE ? state->progress.wanted : PIECE, count = 0;
        int error = state->read(state->source, state->piece, size, &count);
        if (error) return fail(&state->message, error, "the source failed");
        status = count > 0
            ? arrowstream_reader_feed(state->reader, state->piece, count, &state->progress)
            : arrowstream_reader_close(state->reader, &state->progress);
    } while (status == ARROWSTREAM_OK && state->progress.event == ARROWSTREAM_NOTHING);
    if (status != ARROWSTREAM_OK)
        return refused(&state->message, status, state->reader, line_of_reader);
    return state->progress.event == ARROWSTREAM_SCHEMA ? open_exporter(state) : 0;
}

static int is_over(const stream_state *state) {
    return state->progress.event == ARROWSTREAM_END || state->progress.event == ARROWSTREAM_CLOSED;
}

/* Reads the schema if it did not come yet. */
static int begin_stream(stream_state *state) {
    if (!state->error && !state->exporter) state->error = next_event(state);
    return state->error;
}

static int stream_schema(struct ArrowArrayStream *stream, struct ArrowSchema *out) {
    stream_state *state = stream->private_data;
    int error = begin_stream(state);
    return error ? error : arrowstream_exporter_schema(state->exporter, out, &state->message);
}

static int stream_next(struct ArrowArrayStream *stream, struct ArrowArray *out) {
    stream_state *state = stream->private_data;
    arrowstream_batch *batch = NULL;
    out->release = NULL;
    if (begin_stream(state)) return state->error;
    if (!is_over(state)) state->error = next_event(state);
    if (state->error || is_over(state)) return state->error;
    uint32_t status = arrowstream_reader_take(state->reader, &batch);
    if (status != ARROWSTREAM_OK) return state->error = no_memory(&state->message);
    state->error = arrowstream_exporter_batch(state->exporter, batch, out, &state->message);
    arrowstream_reader_reuse(state->reader, batch);
    return state->error;
}

static const char *stream_error(struct ArrowArrayStream *stream) {
    stream_state *state = stream->private_data;
    return state->message.text[0] ? state->message.text : NULL;
}

static void free_state(stream_state *state) {
    arrowstream_exporter_free(state->exporter);
    arrowstream_reader_free(state->reader);
    free(state->piece);
    free(state);
}

static void release_stream(struct ArrowArrayStream *stream) {
    stream_state *state = stream->private_data;
    if (state->close) state->close(state->source);
    free_state(state);
    stream->release = NULL;
}

int arrowstream_export_stream(const arrowstream_limits *limits, arrowstream_read read,
                              void (*close)(void *source), void *source,
                              struct ArrowArrayStream *out, arrowstream_message *message) {
    stream_state *state = calloc(1, sizeof *state);
    out->release = NULL;
    if (!state) return no_memory(message);
    state->piece = malloc(PIECE);
    state->progress.size = sizeof state->progress;
    arrowstream_reader_open(limits, &state->reader);
    if (!state->piece || !state->reader) {
        free_state(state);
        return no_memory(message);
    }
    arrowstream_reader_feed(state->reader, state->piece, 0, &state->progress);
    state->read = read;
    state->close = close;
    state->source = source;
    *out = (struct ArrowArrayStream){stream_schema, stream_next, stream_error, release_stream,
                                     state};
    return 0;
}
