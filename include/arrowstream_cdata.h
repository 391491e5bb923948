/* Hands schemas, batches and streams to other Arrow libraries and takes them from those, by the
 * Arrow C data interface and the Arrow C stream interface
 * (https://arrow.apache.org/docs/format/CDataInterface.html).
 *
 * NOT PROVED, but tested under sanitizers. These calls are a C source of their own (bindings/c),
 * which uses the calls of arrowstream.h alone.
 *
 * A batch that is exported was written by an arrowstream_writer and read back by an
 * arrowstream_reader, whose calls are proved. So of the stream an exported array has only bytes
 * that its rows show. Its offsets begin at 0 and ascend, and its indices are those of values.
 *
 * THE CALLER OWES, and nothing checks, what arrowstream.h demands, and:
 *   - `out` may be written. What is exported there is released once, by its `release`;
 *   - a schema, array or stream that is imported is as the interface demands. Its buffers are as
 *     long as its lengths and offsets state;
 *   - an exporter and a stream are used by one call at a time. Any thread may use, move and release
 *     them, schemas and arrays.
 *
 * Each call returns 0, or an error of errno.h: EINVAL, ENOMEM, ENOTSUP for a type that is not
 * supported, or what a callback returned. Then `out` is released or was not set, and `message` has
 * a line for people unless it is NULL. */
#ifndef ARROWSTREAM_CDATA_H
#define ARROWSTREAM_CDATA_H

#include "arrowstream.h"

#ifdef __cplusplus
extern "C" {
#endif

#ifndef ARROW_C_DATA_INTERFACE
#define ARROW_C_DATA_INTERFACE

#define ARROW_FLAG_DICTIONARY_ORDERED 1
#define ARROW_FLAG_NULLABLE 2
#define ARROW_FLAG_MAP_KEYS_SORTED 4

struct ArrowSchema {
    const char *format;
    const char *name;
    const char *metadata;
    int64_t flags;
    int64_t n_children;
    struct ArrowSchema **children;
    struct ArrowSchema *dictionary;
    void (*release)(struct ArrowSchema *);
    void *private_data;
};

struct ArrowArray {
    int64_t length;
    int64_t null_count;
    int64_t offset;
    int64_t n_buffers;
    int64_t n_children;
    const void **buffers;
    struct ArrowArray **children;
    struct ArrowArray *dictionary;
    void (*release)(struct ArrowArray *);
    void *private_data;
};

#endif
#ifndef ARROW_C_STREAM_INTERFACE
#define ARROW_C_STREAM_INTERFACE

struct ArrowArrayStream {
    int (*get_schema)(struct ArrowArrayStream *, struct ArrowSchema *out);
    int (*get_next)(struct ArrowArrayStream *, struct ArrowArray *out);
    const char *(*get_last_error)(struct ArrowArrayStream *);
    void (*release)(struct ArrowArrayStream *);
    void *private_data;
};

#endif

/* A line about an error, which ends with a zero byte. */
typedef struct {
    char text[256];
} arrowstream_message;

/* ---- export ---------------------------------------------------------------------------------- */

/* Exports the schema of a reader, after it came, as a struct of its fields. A text with a zero
 * byte, which the interface cannot state, is EINVAL. */
int arrowstream_export_schema(const arrowstream_reader *reader, struct ArrowSchema *out,
                              arrowstream_message *message);

/* Exports batches of one schema. */
typedef struct arrowstream_exporter arrowstream_exporter;

/* Sets `out` to a new exporter of batches whose schema is the JSON text of `length` bytes
 * (docs/SCHEMA.md; arrowstream_reader_schema copies it). Free it by arrowstream_exporter_free. */
int arrowstream_exporter_open(const uint8_t *schema, size_t length, arrowstream_exporter **out,
                              arrowstream_message *message);

/* Exports the schema. */
int arrowstream_exporter_schema(const arrowstream_exporter *exporter, struct ArrowSchema *out,
                                arrowstream_message *message);

/* Exports a batch as an array of structs, in memory of its own. The pairs of the batch's message
 * are not exported. The batch remains.
 *
 * Fails with EINVAL if the writer refuses the batch (W2 to W8 of docs/FAULTS.md), for example for a
 * null of a field that may have none, or a time that is not below 24 hours. After an error the
 * exporter may be used again, unless it was ENOMEM. */
int arrowstream_exporter_batch(arrowstream_exporter *exporter, const arrowstream_batch *batch,
                               struct ArrowArray *out, arrowstream_message *message);

/* Frees an exporter, or NULL. What it exported remains. */
void arrowstream_exporter_free(arrowstream_exporter *exporter);

/* Reads at most `length` bytes to `bytes`, and sets `count` to their number, which is 0 only at the
 * end. Returns 0, or an error of errno.h. */
typedef int (*arrowstream_read)(void *source, uint8_t *bytes, size_t length, size_t *count);

/* Exports the stream that a source gives. Nothing is read before the first call of `out`, and no
 * byte after the end-of-stream mark. `close`, unless it is NULL, is called with the source when
 * `out` is released; after an error of this call it is not called.
 *
 * A stream that is refused is EINVAL for that call of `out` and all later ones. */
int arrowstream_export_stream(const arrowstream_limits *limits, arrowstream_read read,
                              void (*close)(void *source), void *source,
                              struct ArrowArrayStream *out, arrowstream_message *message);

/* ---- import ---------------------------------------------------------------------------------- */

/* Begins the stream of a schema, which is a struct of the columns. The writer is new, and then
 * open. The schema remains. A type that is not supported is ENOTSUP, with its format string in the
 * line. Dictionaries get the ids 0, 1, 2, and so on. */
int arrowstream_import_schema(arrowstream_writer *writer, const struct ArrowSchema *schema,
                              arrowstream_message *message);

/* Sends an array of the schema with which the stream began as one batch. The array may have an
 * offset, and its children too. The array remains, and so do rows and pairs that were not sent.
 *
 * Fails with EINVAL, and sends nothing, if a row is null, if the array is not of its schema, if a
 * reader would refuse it as a batch of a stream (F28 to F34 of docs/FAULTS.md), or if the writer
 * refuses it (W2 to W8). Then the stream may go on. */
int arrowstream_import_batch(arrowstream_writer *writer, const struct ArrowSchema *schema,
                             const struct ArrowArray *array, arrowstream_message *message);

/* Begins a stream, and sends each array of another one as a batch. Both remain: call
 * arrowstream_writer_finish, and release `stream`. All bytes wait in the writer's memory. */
int arrowstream_import_stream(arrowstream_writer *writer, struct ArrowArrayStream *stream,
                              arrowstream_message *message);

#ifdef __cplusplus
}
#endif
#endif
