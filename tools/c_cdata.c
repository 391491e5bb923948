/* Exports streams by the Arrow C data interface, checks what is exported, and imports it again.
 *
 *     c_cdata copy       standard input has a stream in each line, in hexadecimal digits
 *     c_cdata slices     the same, but each array is imported in three parts, two with offsets
 *     c_cdata growths    the same as copy, with each growth of memory refused in turn
 *
 * A line of standard output answers each stream: the stream that was imported, in hexadecimal
 * digits, or `refused` and the line of the error; or the number of growths that were refused. */
#include "arrowstream_cdata.h"

#include <errno.h>
#include <stdio.h>
#include <stdlib.h>
#include <string.h>

static size_t growths, refused_growth;

static int is_refused(void) { return ++growths == refused_growth; }

void *__real_malloc(size_t size);
void *__real_calloc(size_t count, size_t size);
void *__real_realloc(void *room, size_t size);
void *__real_aligned_alloc(size_t alignment, size_t size);
void *__wrap_malloc(size_t size);
void *__wrap_calloc(size_t count, size_t size);
void *__wrap_realloc(void *room, size_t size);
void *__wrap_aligned_alloc(size_t alignment, size_t size);

void *__wrap_malloc(size_t size) { return is_refused() ? NULL : __real_malloc(size); }

void *__wrap_calloc(size_t count, size_t size) {
    return is_refused() ? NULL : __real_calloc(count, size);
}

void *__wrap_realloc(void *room, size_t size) {
    return is_refused() ? NULL : __real_realloc(room, size);
}

void *__wrap_aligned_alloc(size_t alignment, size_t size) {
    return is_refused() ? NULL : __real_aligned_alloc(alignment, size);
}

static void need(int holds, const char *what) {
    if (holds) return;
    fprintf(stderr, "c_cdata: %s\n", what);
    abort();
}

typedef struct {
    const uint8_t *bytes;
    size_t length, taken;
} memory_source;

/* Gives at most 1,000 bytes in a call. */
static int read_memory(void *source, uint8_t *bytes, size_t length, size_t *count) {
    memory_source *from = source;
    size_t left = from->length - from->taken, most = length < 1000 ? length : 1000;
    *count = left < most ? left : most;
    memcpy(bytes, from->bytes + from->taken, *count);
    from->taken += *count;
    return 0;
}

/* ---- what is exported ------------------------------------------------------------------------ */

static int is_valid(const struct ArrowArray *array, int64_t slot) {
    const uint8_t *bitmap = array->n_buffers > 0 ? array->buffers[0] : NULL;
    return !bitmap || (bitmap[slot / 8] >> (slot % 8) & 1);
}

static void check_zeros(const uint8_t *bytes, size_t first, size_t last) {
    for (size_t i = first; i < last; i++) need(bytes[i] == 0, "a byte that no row shows");
}

/* The bits of one slot of a type of fixed width, or 0. */
static size_t width_of(const char *format) {
    static const char letters[] = "cCsSiIlL";
    const char *letter = strchr(letters, format[0]);
    if (format[0] == 'b') return 1;
    if (format[0] == 'w') return 8 * (size_t)strtoul(format + 2, NULL, 10);
    if (letter && format[1] == 0) return (size_t)8 << (letter - letters) / 2;
    if (format[0] != 't') return 0;
    return strcmp(format, "tdD") == 0 || strcmp(format, "tts") == 0 || strcmp(format, "ttm") == 0
        ? 32
        : 64;
}

static void check_nulls(const struct ArrowArray *array) {
    const uint8_t *bitmap = array->buffers[0];
    int64_t nulls = 0;
    for (int64_t slot = 0; slot < array->length; slot++) nulls += !is_valid(array, slot);
    need(nulls == array->null_count && !bitmap == !nulls, "another count of nulls");
    if (!bitmap) return;
    for (int64_t slot = array->length; slot < (array->length + 63) / 64 * 64; slot++)
        need(!is_valid(array, slot), "a bit after the last slot");
}

/* The values of null slots are zeros, and so are the bytes after the last slot. */
static void check_numbers(const struct ArrowArray *array, size_t width) {
    const uint8_t *values = array->buffers[1];
    size_t bits = width * (size_t)array->length, end = ((bits + 7) / 8 + 63) / 64 * 64;
    for (int64_t slot = 0; slot < array->length; slot++) {
        size_t first = width * (size_t)slot;
        if (is_valid(array, slot)) continue;
        if (width == 1)
            need(!(values[first / 8] >> first % 8 & 1), "a bit under a null");
        else
            check_zeros(values, first / 8, (first + width) / 8);
    }
    if (width == 1 && bits % 8) need(values[bits / 8] >> bits % 8 == 0, "a bit after the last");
    check_zeros(values, (bits + 7) / 8, end);
}

/* Offsets begin at 0 and ascend, and a null slot is empty. Returns the last one. */
static int64_t check_offsets(const struct ArrowArray *array) {
    const int32_t *offsets = array->buffers[1];
    need(offsets[0] == 0, "the first offset is not 0");
    for (int64_t slot = 0; slot < array->length; slot++) {
        need(offsets[slot] <= offsets[slot + 1], "offsets do not ascend");
        need(is_valid(array, slot) || offsets[slot] == offsets[slot + 1], "bytes under a null");
    }
    return offsets[array->length];
}

/* The indices of valid slots are those of values. */
static void check_indices(const struct ArrowArray *array, size_t width) {
    for (int64_t slot = 0; slot < array->length; slot++) {
        uint64_t index = 0;
        memcpy(&index, (const uint8_t *)array->buffers[1] + width / 8 * (size_t)slot, width / 8);
        if (is_valid(array, slot))
            need(index < (uint64_t)array->dictionary->length, "an index of no value");
    }
}

static void check_array(const struct ArrowSchema *schema, const struct ArrowArray *array) {
    size_t width = width_of(schema->format);
    need(array->release && array->offset == 0 && array->n_children == schema->n_children, "form");
    for (int64_t i = 0; i < array->n_buffers; i++)
        need((uintptr_t)array->buffers[i] % 64 == 0, "a buffer that is not aligned");
    if (array->n_buffers == 0) need(array->null_count == array->length, "nulls");
    if (array->n_buffers > 0) check_nulls(array);
    if (width > 0) check_numbers(array, width);
    if (array->n_buffers == 3)
        check_zeros(array->buffers[2], (size_t)check_offsets(array),
                    ((size_t)check_offsets(array) + 63) / 64 * 64);
    if (strcmp(schema->format, "+l") == 0)
        need(check_offsets(array) == array->children[0]->length, "items that no list has");
    if (strcmp(schema->format, "+s") == 0)
        for (int64_t i = 0; i < array->n_children; i++)
            need(array->children[i]->length == array->length, "members of another length");
    for (int64_t i = 0; i < array->n_children; i++)
        check_array(schema->children[i], array->children[i]);
    need(!array->dictionary == !schema->dictionary, "a dictionary is not there");
    if (!array->dictionary) return;
    check_array(schema->dictionary, array->dictionary);
    check_indices(array, width);
}

/* Moves the last child out, releases the array, and reads the child. */
static void check_moved(const struct ArrowSchema *schema, struct ArrowArray *array) {
    struct ArrowArray child;
    int64_t last = array->n_children - 1;
    if (last >= 0) {
        child = *array->children[last];
        array->children[last]->release = NULL;
    }
    array->release(array);
    need(array->release == NULL, "not released");
    if (last < 0) return;
    check_array(schema->children[last], &child);
    child.release(&child);
}

static void set_line(arrowstream_message *message, const char *line) {
    snprintf(message->text, sizeof message->text, "%s", line);
}

/* ---- slices ---------------------------------------------------------------------------------- */

static int is_sliced;

/* Imports rows of an array from `first` on, by children that have this offset. */
static int import_end(arrowstream_writer *writer, const struct ArrowSchema *schema,
                      const struct ArrowArray *array, int64_t first, arrowstream_message *message) {
    size_t count = (size_t)array->n_children;
    struct ArrowArray part = *array, *children = __real_calloc(count + 1, sizeof *children);
    struct ArrowArray **pointers = __real_calloc(count + 1, sizeof *pointers);
    need(children && pointers, "no memory");
    for (size_t i = 0; i < count; i++) {
        children[i] = *array->children[i];
        children[i].offset += first;
        children[i].length -= first;
        pointers[i] = &children[i];
    }
    part.length -= first;
    part.children = pointers;
    int error = arrowstream_import_batch(writer, schema, &part, message);
    free(children);
    free(pointers);
    return error;
}

/* Imports an array, or its beginning, a part from the middle with an offset, and its end. */
static int import_array(arrowstream_writer *writer, const struct ArrowSchema *schema,
                        const struct ArrowArray *array, arrowstream_message *message) {
    struct ArrowArray part = *array;
    if (!is_sliced) return arrowstream_import_batch(writer, schema, array, message);
    part.length = array->length / 3;
    int error = arrowstream_import_batch(writer, schema, &part, message);
    part.offset = part.length;
    if (!error) error = arrowstream_import_batch(writer, schema, &part, message);
    return error ? error : import_end(writer, schema, array, 2 * part.length, message);
}

/* ---- copies ---------------------------------------------------------------------------------- */

static int copy_arrays(struct ArrowArrayStream *stream, const struct ArrowSchema *schema,
                       arrowstream_writer *writer, arrowstream_message *message) {
    for (;;) {
        struct ArrowArray array;
        int error = stream->get_next(stream, &array);
        if (error) set_line(message, stream->get_last_error(stream));
        if (error || !array.release) return error;
        check_array(schema, &array);
        error = import_array(writer, schema, &array, message);
        check_moved(schema, &array);
        if (error) return error;
    }
}

static int copy_stream(struct ArrowArrayStream *stream, arrowstream_writer *writer,
                       arrowstream_message *message) {
    struct ArrowSchema schema;
    int error = stream->get_schema(stream, &schema);
    if (error) {
        set_line(message, stream->get_last_error(stream));
        return error;
    }
    error = arrowstream_import_schema(writer, &schema, message);
    if (!error) error = copy_arrays(stream, &schema, writer, message);
    schema.release(&schema);
    if (error) return error;
    uint32_t status = arrowstream_writer_finish(writer);
    if (status == ARROWSTREAM_OK) return 0;
    need(status >= ARROWSTREAM_WRITE, "the stream is not finished");
    set_line(message, "the stream is not finished");
    return status == ARROWSTREAM_WRITE + 9 || status == ARROWSTREAM_WRITE_OUT_OF_MEMORY ? ENOMEM
                                                                                         : EINVAL;
}

static void print_ready(arrowstream_writer *writer) {
    uint8_t piece[4096];
    for (size_t count; (count = arrowstream_writer_take(writer, piece, sizeof piece)) > 0;)
        for (size_t i = 0; i < count; i++) printf("%02x", piece[i]);
    printf("\n");
}

/* Copies a stream. Prints the copy or the error, if it is to be printed. */
static int answer(const uint8_t *bytes, size_t length, int is_printed) {
    arrowstream_limits limits = {.size = sizeof limits};
    arrowstream_writer *writer = NULL;
    arrowstream_message message = {""};
    memory_source source = {bytes, length, 0};
    struct ArrowArrayStream stream;
    arrowstream_limits_standard(&limits);
    int error = arrowstream_export_stream(&limits, read_memory, NULL, &source, &stream, &message);
    if (!error) {
        arrowstream_writer_open(&limits, &writer);
        error = writer ? copy_stream(&stream, writer, &message) : ENOMEM;
        stream.release(&stream);
    }
    if (is_printed && error) printf("refused %s\n", message.text);
    if (is_printed && !error) print_ready(writer);
    arrowstream_writer_free(writer);
    return error;
}

/* Refuses each growth in turn, until none is left. */
static void answer_growths(const uint8_t *bytes, size_t length) {
    int whole = answer(bytes, length, 0);
    size_t count = 0;
    for (;;) {
        growths = 0;
        refused_growth = count + 1;
        int error = answer(bytes, length, 0);
        if (growths < refused_growth) break;
        need(error == ENOMEM || error == whole, "a refused growth is another error");
        count++;
    }
    refused_growth = 0;
    printf("%zu\n", count);
}

static uint8_t *bytes_of(const char *line, size_t *length) {
    size_t digits = strcspn(line, "\n");
    uint8_t *bytes = malloc(digits / 2 + 1);
    need(bytes != NULL, "out of memory");
    for (size_t i = 0; i < digits / 2; i++) {
        unsigned byte = 0;
        need(sscanf(line + 2 * i, "%2x", &byte) == 1, "no hexadecimal digits");
        bytes[i] = (uint8_t)byte;
    }
    *length = digits / 2;
    return bytes;
}

/* ---- arrays that do not hold what their schema states ---------------------------------------- */

/* Imports an array of one column, and prints the line of the error. */
static void refuse_column(struct ArrowSchema *field, struct ArrowArray *column,
                          const uint8_t *bitmap) {
    const void *rows[] = {bitmap};
    struct ArrowSchema schema = {.format = "+s", .n_children = 1, .children = &field};
    struct ArrowArray array = {
        .length = 3, .n_buffers = 1, .n_children = 1, .buffers = rows, .children = &column};
    arrowstream_limits limits = {.size = sizeof limits};
    arrowstream_writer *writer = NULL;
    arrowstream_message message = {"sent"};
    arrowstream_limits_standard(&limits);
    arrowstream_writer_open(&limits, &writer);
    need(writer && arrowstream_import_schema(writer, &schema, &message) == 0, "no schema");
    int error = arrowstream_import_batch(writer, &schema, &array, &message);
    need(error == 0 || error == EINVAL, "another error");
    printf("%s\n", message.text);
    need(arrowstream_writer_finish(writer) == ARROWSTREAM_OK, "the writer does not go on");
    arrowstream_writer_free(writer);
}

static void refuse_texts(const int32_t *offsets, const char *data, int64_t length,
                         const uint8_t *bitmap) {
    const void *buffers[] = {NULL, offsets, data};
    struct ArrowSchema field = {.format = "u", .name = "a"};
    struct ArrowArray column = {.length = length, .n_buffers = 3, .buffers = buffers};
    refuse_column(&field, &column, bitmap);
}

static void refuse_indices(const int8_t *indices, int64_t buffers) {
    static const int32_t offsets[] = {0, 1, 2};
    const void *pointers[] = {NULL, indices}, *texts[] = {NULL, offsets, "ab"};
    struct ArrowSchema values = {.format = "u"},
                       field = {.format = "c", .name = "a", .dictionary = &values};
    struct ArrowArray entries = {.length = 2, .n_buffers = 3, .buffers = texts},
                      column = {.length = 3, .n_buffers = buffers, .buffers = pointers,
                                .dictionary = &entries};
    refuse_column(&field, &column, NULL);
}

static void refuse_arrays(void) {
    static const int32_t good[] = {0, 1, 2, 4}, descend[] = {0, 3, 1, 4}, end[] = {4, 4, 4, 1};
    refuse_texts(good, "abcd", 3, NULL);
    refuse_texts(descend, "abcd", 3, NULL);
    refuse_texts(end, "abcd", 3, NULL);
    refuse_texts(good, "ab\xff" "d", 3, NULL);
    refuse_texts(good, "abcd", 2, NULL);
    refuse_texts(good, "abcd", 3, (const uint8_t *)"\5");
    refuse_indices((const int8_t[]){0, 1, 1}, 2);
    refuse_indices((const int8_t[]){0, 2, 1}, 2);
    refuse_indices((const int8_t[]){0, -1, 1}, 2);
    refuse_indices((const int8_t[]){0, 1, 1}, 3);
}

int main(int count, char **words) {
    char *line = NULL;
    size_t room = 0, length = 0;
    need(count == 2, "a mode is wanted");
    if (strcmp(words[1], "arrays") == 0) refuse_arrays();
    is_sliced = strcmp(words[1], "slices") == 0;
    while (getline(&line, &room, stdin) > 0) {
        uint8_t *bytes = bytes_of(line, &length);
        if (strcmp(words[1], "growths") == 0)
            answer_growths(bytes, length);
        else
            answer(bytes, length, 1);
        free(bytes);
    }
    free(line);
    return 0;
}
