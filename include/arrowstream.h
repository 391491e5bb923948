/* Reads and writes Apache Arrow IPC streams (streaming format, metadata version V5).
 *
 * A reader takes bytes and reports the schema, record batches and the end of the stream. A batch
 * that was taken from its reader stays valid until it is freed. Every accepted stream and every
 * refusal is that of the program `arrowstream` (docs/FAULTS.md lists the refusals F1 to F37).
 *
 * A writer is given a schema and the cells of rows, and makes the bytes of a stream. Its refusals
 * are W1 to W11 and X6 of docs/FAULTS.md.
 *
 * PROVED, by machine, for each call below: it is memory safe and returns on every input. Its
 * result, what it writes and the state that it leaves are as its comment says (docs/PROVED.md names
 * the clauses). The buffers of one column are mutually consistent, and are the bytes that the
 * batch's message has for them.
 *
 * ONLY TESTED: that the buffers of a dictionary's values are so too; that NULL with length 0 is
 * accepted; that memory ran out where a call says so; and that the calls that free give all memory
 * back.
 *
 * THE CALLER OWES, and nothing checks:
 *   - a reader, batch or writer is NULL, or is one that a call set and that is not freed yet;
 *   - a pointer with a length may be read, or written if it is not const, for that many elements,
 *     and may be NULL if the length is 0; an `out` or `wanted` may be written; no two of them
 *     overlap;
 *   - each reader, batch and writer is used by one call at a time, and not from a signal handler.
 *     Any thread may make a call; a lock or the like passes what one thread wrote to the next;
 *   - malloc, realloc and free are one allocator, and malloc aligns as C demands.
 *
 * A call at NULL returns ARROWSTREAM_MISUSE if it returns a status, and else 0, and does nothing
 * else. A `wanted` is then 0, the members of a progress after its `size` are zeros, and
 * arrowstream_reader_take and arrowstream_batch_clone set NULL. To free NULL does nothing.
 *
 * Structs that may grow in later versions begin with `size`: set it to sizeof the struct before
 * the call. A library reads and writes no byte after the first `size` bytes. If `size` is less than
 * in this version, the struct stays as it is, and the call returns ARROWSTREAM_MISUSE and does
 * nothing else.
 *
 * Bytes are copied, never lent: no pointer into a reader, a batch or a writer leaves the
 * library. */
#ifndef ARROWSTREAM_H
#define ARROWSTREAM_H

#include <stddef.h>
#include <stdint.h>

#ifdef __cplusplus
extern "C" {
#endif

/* The version of the library, and that of this interface: the major number of the former times
 * 65,536, plus its minor number. */
#define ARROWSTREAM_RELEASE "0.1.0"
#define ARROWSTREAM_VERSION 1u

/* Returns ARROWSTREAM_VERSION of the library that is linked. */
uint32_t arrowstream_version(void);

/* The status of a call: ARROWSTREAM_OK, the number 1 to 37 of a refusal F1 to F37, or one of these.
 * ARROWSTREAM_WRITE + n is the status of the refusal Wn, and ARROWSTREAM_TEXT + n that of Xn. */
#define ARROWSTREAM_OK 0u
#define ARROWSTREAM_FAILED 35u        /* F35: an earlier call was refused */
#define ARROWSTREAM_OUT_OF_MEMORY 37u /* F37 */
#define ARROWSTREAM_ABSENT 64u        /* what was asked for does not exist */
#define ARROWSTREAM_MISUSE 65u        /* the writer does not allow the call in its state, or NULL */
#define ARROWSTREAM_NOT_UTF8 66u      /* a text for a writer is not UTF-8 */
#define ARROWSTREAM_WRITE 100u
#define ARROWSTREAM_WRITE_FAILED 110u        /* W10: the writer has ended */
#define ARROWSTREAM_WRITE_OUT_OF_MEMORY 111u /* W11 */
#define ARROWSTREAM_TEXT 200u

/* ---- limits ---------------------------------------------------------------------------------- */

/* The most that a reader accepts and a writer makes. A value above its maximum counts as the
 * maximum. */
typedef struct {
    size_t size;       /* sizeof(arrowstream_limits) */
    uint64_t metadata; /* bytes of a message's metadata: at most 2^28 */
    uint64_t body;     /* bytes of a message's body: at most 2^42 */
    uint64_t slots;    /* rows of a batch, and slots of a column: at most 2^31 - 1 */
    uint64_t fields;   /* fields of a schema with their descendants: at most 2^20 */
    uint64_t depth;    /* nesting of fields: at most 64 */
    uint64_t text;     /* bytes of a schema's names, keys, values and timezones: at most 2^30 */
    uint64_t pairs;    /* pairs of key and value of a schema, and of a batch: at most 2^24 */
} arrowstream_limits;

/* Sets limits that fit what is written in practice: 2^24 bytes of metadata, 2^40 of a body,
 * 2^31 - 1 slots, 65,536 fields, a depth of 64, 2^26 bytes of text and 2^20 pairs. Returns
 * ARROWSTREAM_OK. */
uint32_t arrowstream_limits_standard(arrowstream_limits *out);

/* ---- reader ---------------------------------------------------------------------------------- */

typedef struct arrowstream_reader arrowstream_reader;
typedef struct arrowstream_batch arrowstream_batch;

enum {
    ARROWSTREAM_NOTHING = 0, /* all bytes were taken and more are needed, or the stream is over */
    ARROWSTREAM_SCHEMA = 1,
    ARROWSTREAM_BATCH = 2,
    ARROWSTREAM_END = 3, /* the end-of-stream mark */
    ARROWSTREAM_CLOSED =
        4 /* the end of the input without the mark: only arrowstream_reader_close reports it */
};

typedef struct {
    size_t size;       /* sizeof(arrowstream_progress) */
    size_t taken;      /* bytes that the call took: pass the others to the next call */
    size_t wanted;     /* bytes before the next decision; 0 after the end and after a refusal */
    uint64_t messages; /* messages that came, with those of the schema and of dictionaries */
    uint64_t event;    /* what came, one of the constants above */
} arrowstream_progress;

/* Sets `out` to a new reader at the beginning of a stream, or to NULL if memory ran out or the
 * `size` of the limits is too small. Free it by arrowstream_reader_free. */
void arrowstream_reader_open(const arrowstream_limits *limits, arrowstream_reader **out);

/* Takes a beginning of the `length` bytes, up to the first event. After ARROWSTREAM_BATCH call
 * arrowstream_reader_take; a batch that is not taken is dropped by the next call of this function.
 * After the end nothing is taken, and the event is ARROWSTREAM_NOTHING.
 *
 * Returns ARROWSTREAM_OK, or the number of the refusal; then `taken` is 0 and the event
 * ARROWSTREAM_NOTHING, whatever part of the bytes was read. Each later call returns
 * ARROWSTREAM_FAILED. The schema and batches from before remain valid. `out` is set in every
 * case. */
uint32_t arrowstream_reader_feed(arrowstream_reader *reader, const uint8_t *bytes, size_t length,
                                 arrowstream_progress *out);

/* Ends the input: no more bytes come. The event is ARROWSTREAM_END after the end-of-stream mark,
 * and ARROWSTREAM_CLOSED after the schema and between two messages. The batch that came last
 * remains.
 *
 * Returns ARROWSTREAM_OK, or the number of the refusal: 4 inside a message and before the schema,
 * and ARROWSTREAM_FAILED after an earlier refusal. `out` is set in every case. */
uint32_t arrowstream_reader_close(arrowstream_reader *reader, arrowstream_progress *out);

/* Copies the schema as JSON text (UTF-8, no terminating zero; docs/SCHEMA.md) to `text`, and sets
 * `wanted` to its number of bytes. If `length` is less, nothing is copied: call again with more
 * room.
 *
 * Returns ARROWSTREAM_OK in both cases, ARROWSTREAM_ABSENT before the schema came, or
 * ARROWSTREAM_OUT_OF_MEMORY; in these two nothing is copied and `wanted` is 0. The reader stays as
 * it is. */
uint32_t arrowstream_reader_schema(const arrowstream_reader *reader, uint8_t *text, size_t length,
                                   size_t *wanted);

typedef struct {
    size_t size;          /* sizeof(arrowstream_field) */
    uint32_t is_nullable; /* 1 if values may be null, else 0 */
    uint32_t index_bits;  /* 8, 16, 32 or 64 for the indices of a dictionary, else 0 */
    uint32_t is_signed;   /* 1 for indices in two's complement, else 0 */
    uint32_t is_ordered;  /* 1 if the order of the dictionary's values is meaningful, else 0 */
    int64_t dictionary;   /* the id of the dictionary, or 0 without one */
    size_t children;      /* fields below it */
    size_t pairs;         /* pairs of key and value */
} arrowstream_field;

/* Describes a field of the schema. The first of the `steps` numbers of `path` is the number of a
 * field, from 0. Each further number leads to the child of that number. An empty path leads to the
 * schema as a whole, which is described as a struct of its fields.
 *
 * Returns ARROWSTREAM_OK, or ARROWSTREAM_ABSENT before the schema came, or if the path leads to no
 * field; then `out` is left as it is. The reader stays as it is. */
uint32_t arrowstream_reader_field(const arrowstream_reader *reader, const uint64_t *path,
                                  size_t steps, arrowstream_field *out);

/* The texts of a field. A format string states a type as the Arrow C data interface does ("Data
 * type description -- format strings"): that of the indices if the field has a dictionary. Key and
 * value are those of a pair. The schema as a whole has an empty name and the format of a struct. */
enum {
    ARROWSTREAM_FIELD_NAME = 0,
    ARROWSTREAM_FIELD_FORMAT = 1,
    ARROWSTREAM_FIELD_VALUES_FORMAT = 2, /* of the dictionary's values */
    ARROWSTREAM_FIELD_KEY = 3,
    ARROWSTREAM_FIELD_VALUE = 4
};

/* Copies a text of the field to which a path leads (see arrowstream_reader_field). `pair` is the
 * number of the pair, from 0, and is not used for other texts. `bytes`, `length`, `wanted` and the
 * result are as in arrowstream_reader_schema; ARROWSTREAM_ABSENT also if there is no such field or
 * text. */
uint32_t arrowstream_reader_field_text(const arrowstream_reader *reader, const uint64_t *path,
                                       size_t steps, uint32_t text, uint64_t pair, uint8_t *bytes,
                                       size_t length, size_t *wanted);

/* Copies the line of the first refusal, such as "F4 Truncated at message 2", as the program prints
 * it, without a line feed. `text`, `length`, `wanted` and the result are as in
 * arrowstream_reader_schema; ARROWSTREAM_ABSENT before a refusal. */
uint32_t arrowstream_reader_line(const arrowstream_reader *reader, uint8_t *text, size_t length,
                                 size_t *wanted);

/* Takes the batch that the last call of arrowstream_reader_feed reported, and sets `out` to it.
 * Free it by arrowstream_batch_free or arrowstream_reader_reuse, before or after its reader.
 *
 * Returns ARROWSTREAM_OK, ARROWSTREAM_ABSENT if there is none to take, or
 * ARROWSTREAM_OUT_OF_MEMORY: then the batch is dropped. If it does not return ARROWSTREAM_OK, `out`
 * is NULL. */
uint32_t arrowstream_reader_take(arrowstream_reader *reader, arrowstream_batch **out);

/* Frees a batch of this reader or of another one, and lets the reader read the next body into its
 * memory, so that this need not be allocated and cleared again. Nothing else changes.
 *
 * The memory is given back instead if the reader has ended or refused, if bytes of a body already
 * came, or if the reader already keeps more; this is not proved. At a NULL reader the call is
 * arrowstream_batch_free. */
void arrowstream_reader_reuse(arrowstream_reader *reader, arrowstream_batch *batch);

/* Frees a reader. Batches that were taken from it remain. */
void arrowstream_reader_free(arrowstream_reader *reader);

/* ---- batch ----------------------------------------------------------------------------------- */

/* Of the calls below, only arrowstream_batch_free changes a batch. */

size_t arrowstream_batch_rows(const arrowstream_batch *batch);
size_t arrowstream_batch_columns(const arrowstream_batch *batch);

/* Copies the metadata of the batch's message as JSON text: an array of pairs of a key and a value.
 * `text`, `length`, `wanted` and the result are as in arrowstream_reader_schema, but
 * ARROWSTREAM_ABSENT never comes. */
uint32_t arrowstream_batch_pairs(const arrowstream_batch *batch, uint8_t *text, size_t length,
                                 size_t *wanted);

enum {
    ARROWSTREAM_LAYOUT_NULL = 0, /* no buffers */
    ARROWSTREAM_LAYOUT_BITS = 1, /* values: a bit for each slot, the lowest bit of a byte first */
    ARROWSTREAM_LAYOUT_NUMBERS = 2,     /* values: little-endian numbers of `bits` bits */
    ARROWSTREAM_LAYOUT_FIXED_BYTES = 3, /* values: `size` bytes for each slot */
    ARROWSTREAM_LAYOUT_BYTES = 4,       /* offsets, 32 bits each, into the bytes of values */
    ARROWSTREAM_LAYOUT_TEXTS = 5,       /* as bytes, in UTF-8 */
    ARROWSTREAM_LAYOUT_LISTS = 6,       /* offsets, 32 bits each, into the slots of child 0 */
    ARROWSTREAM_LAYOUT_FIXED_LISTS = 7, /* `size` slots of child 0 for each slot */
    ARROWSTREAM_LAYOUT_STRUCTS = 8,     /* slot i has slot i of each child */
    ARROWSTREAM_LAYOUT_INDICES = 9 /* values: indices of `bits` bits into the dictionary's values */
};

typedef struct {
    uint32_t kind;      /* one of the constants above */
    uint32_t bits;      /* 8, 16, 32 or 64 for numbers and indices, else 0 */
    uint32_t is_signed; /* 1 for numbers and indices in two's complement, else 0 */
    uint32_t size;      /* of fixed-size bytes or lists, else 0 */
    int64_t dictionary; /* the id of the dictionary of indices, else 0 */
} arrowstream_layout;

typedef struct {
    size_t size; /* sizeof(arrowstream_column) */
    arrowstream_layout layout;
    size_t slots;    /* a column of a batch has a slot for each row */
    uint64_t nulls;  /* slots that the validity bitmap marks as null, or 0 without a bitmap */
    size_t children; /* 1 for lists, the number of members of structs, else 0 */
    size_t validity; /* bytes of the validity bitmap, or 0 if the column has none */
    size_t offsets;  /* bytes of the offsets */
    size_t values;   /* bytes of the values */
} arrowstream_column;

/* The step of a path from a column of indices to the values of its dictionary. */
#define ARROWSTREAM_DICTIONARY UINT64_MAX

/* Describes a column. The first of the `steps` numbers of `path` is the column's number, from 0.
 * Each further number leads down: to the child of that number, or by ARROWSTREAM_DICTIONARY.
 *
 * Returns ARROWSTREAM_OK, or ARROWSTREAM_ABSENT if the path is empty or leads to no column; then
 * `out` is left as it is. */
uint32_t arrowstream_batch_column(const arrowstream_batch *batch, const uint64_t *path,
                                  size_t steps, arrowstream_column *out);

enum {
    ARROWSTREAM_BUFFER_VALIDITY = 0,
    ARROWSTREAM_BUFFER_OFFSETS = 1,
    ARROWSTREAM_BUFFER_VALUES = 2
};

/* Copies one buffer of the column to which a path leads (see arrowstream_batch_column) to `bytes`,
 * and sets `wanted` to its number of bytes. If `length` is less, nothing is copied. A buffer has
 * the bytes that the slots need, and may have more. The values of null slots have no
 * meaning.
 *
 * Returns ARROWSTREAM_OK in both cases, or ARROWSTREAM_ABSENT if the path leads to no column or
 * there is no buffer of this number; then nothing is copied and `wanted` is 0. */
uint32_t arrowstream_batch_buffer(const arrowstream_batch *batch, const uint64_t *path,
                                  size_t steps, uint32_t buffer, uint8_t *bytes, size_t length,
                                  size_t *wanted);

/* Sets `out` to another handle of the same batch. The two share the memory of the body, and two
 * threads may use them at the same time. Free each of them.
 *
 * Returns ARROWSTREAM_OK, or ARROWSTREAM_OUT_OF_MEMORY; then `out` is NULL. */
uint32_t arrowstream_batch_clone(const arrowstream_batch *batch, arrowstream_batch **out);

/* Frees a batch. */
void arrowstream_batch_free(arrowstream_batch *batch);

/* ---- writer ---------------------------------------------------------------------------------- */

typedef struct arrowstream_writer arrowstream_writer;

/* A writer is in one of three states:
 *
 *   new      it waits for the schema. Every call except arrowstream_writer_schema returns
 *            ARROWSTREAM_MISUSE.
 *   open     rows are given and sent.
 *   ended    the stream was finished, or W9 or W11 came. Every call returns
 *            ARROWSTREAM_WRITE_FAILED.
 *
 * This applies to every call that returns a status, except arrowstream_writer_line. The bytes that
 * a call makes are ready at once, and remain so until they are taken. After W11 these are the bytes
 * of earlier calls. After W9 they are a beginning of the stream.
 *
 * If a call returns another status than ARROWSTREAM_OK, the writer is as it was, unless the call
 * states otherwise. */

/* Sets `out` to a new writer, or to NULL if memory ran out or the `size` of the limits is too
 * small. All that it makes is within the limits. Free it by arrowstream_writer_free. */
void arrowstream_writer_open(const arrowstream_limits *limits, arrowstream_writer **out);

/* Begins the stream of the schema that the JSON text of `length` bytes states (docs/SCHEMA.md). The
 * writer is open.
 *
 * Returns ARROWSTREAM_OK, or ARROWSTREAM_TEXT + 6 if the text states no schema, or
 * ARROWSTREAM_WRITE + 1, 6, 9 or 11. Returns ARROWSTREAM_MISUSE if the writer is open. */
uint32_t arrowstream_writer_schema(arrowstream_writer *writer, const uint8_t *text, size_t length);

/* These calls add one cell to the row, or to the list or struct that was begun last and has not
 * ended. A cell is of the kind that the field's type stores (docs/SCHEMA.md): integers, dates,
 * times, timestamps and durations are `int`; unsigned integers are `uint`; the cell of a field with
 * a dictionary is one of its values. As a `bool` 0 is false, and each other number is true. Whether
 * a cell fits is checked by arrowstream_writer_row.
 *
 * They return ARROWSTREAM_OK, ARROWSTREAM_MISUSE or ARROWSTREAM_WRITE + 10 or 11.
 * arrowstream_writer_text also returns ARROWSTREAM_NOT_UTF8. */
uint32_t arrowstream_writer_null(arrowstream_writer *writer);
uint32_t arrowstream_writer_bool(arrowstream_writer *writer, uint32_t value);
uint32_t arrowstream_writer_int(arrowstream_writer *writer, int64_t value);
uint32_t arrowstream_writer_uint(arrowstream_writer *writer, uint64_t value);
uint32_t arrowstream_writer_bytes(arrowstream_writer *writer, const uint8_t *bytes, size_t length);
uint32_t arrowstream_writer_text(arrowstream_writer *writer, const uint8_t *text, size_t length);

/* These calls begin a list or a struct, whose cells follow: for a struct one for each child of its
 * field. They return ARROWSTREAM_MISUSE also inside 64 lists and structs that have not ended. */
uint32_t arrowstream_writer_begin_list(arrowstream_writer *writer);
uint32_t arrowstream_writer_begin_struct(arrowstream_writer *writer);

/* Ends the list or struct that was begun last: it is one cell of the row, list or struct around it.
 * Returns ARROWSTREAM_MISUSE also if none was begun. */
uint32_t arrowstream_writer_end(arrowstream_writer *writer);

/* Ends the row. It is added to the rows that are sent next.
 *
 * Returns ARROWSTREAM_OK, or ARROWSTREAM_WRITE + 2, 3, 4 or 5 if the row does not fit the schema;
 * then it is dropped. Returns ARROWSTREAM_MISUSE also inside a list or struct. */
uint32_t arrowstream_writer_row(arrowstream_writer *writer);

/* Drops the cells of the row that has not ended, with the lists and structs that were begun in it.
 * The rows before it remain. Returns ARROWSTREAM_OK, ARROWSTREAM_MISUSE or ARROWSTREAM_WRITE +
 * 10. */
uint32_t arrowstream_writer_drop_row(arrowstream_writer *writer);

/* Adds a pair of key and value to the metadata of the batch that is sent next, after the pairs that
 * it has. A key may occur more than once. Limits are checked by arrowstream_writer_send.
 *
 * Returns ARROWSTREAM_OK, ARROWSTREAM_MISUSE, ARROWSTREAM_NOT_UTF8 if the key or the value is not
 * UTF-8, or ARROWSTREAM_WRITE + 10 or 11. */
uint32_t arrowstream_writer_pair(arrowstream_writer *writer, const uint8_t *key, size_t key_length,
                                 const uint8_t *value, size_t value_length);

/* Drops the rows and pairs that were not sent, and the row that has not ended. Returns as
 * arrowstream_writer_drop_row. */
uint32_t arrowstream_writer_drop_batch(arrowstream_writer *writer);

/* Sends the rows as one record batch with the pairs, after the dictionaries that it needs. There
 * may be no rows, and no pairs.
 *
 * Returns ARROWSTREAM_OK, or ARROWSTREAM_WRITE + 6, 7, 8, 9 or 11. Rows and pairs are dropped in
 * each of these cases. Cells of a row that has not ended remain. */
uint32_t arrowstream_writer_send(arrowstream_writer *writer);

/* Sends the columns and pairs of a batch that was read as one record batch, after the dictionaries
 * that it needs. The batch remains, and so do rows and pairs that were not sent.
 *
 * Returns ARROWSTREAM_OK, or ARROWSTREAM_WRITE + 2 to 9 or 11. */
uint32_t arrowstream_writer_columns(arrowstream_writer *writer, const arrowstream_batch *batch);

typedef struct {
    size_t size;    /* sizeof(arrowstream_canonical) */
    size_t bytes;   /* bytes of the body: a multiple of 8 */
    size_t nodes;   /* one for each field, with the fields below it */
    size_t buffers; /* buffers of these fields */
} arrowstream_canonical;

/* Lays a batch that was read out in memory of the caller: `bytes` gets the body of the message that
 * arrowstream_writer_columns would send for it, in one block. Each buffer begins at a multiple of 8
 * bytes and is followed by zeros up to the next one. A validity bitmap has bytes only if a slot is
 * null. Null slots are zeros or empty, offsets begin at 0, and no byte is there that no row shows.
 * An index is that of its value among those that are sent of its dictionary once
 * arrowstream_writer_columns is called with the batch.
 *
 * `numbers` gets two numbers for each field of the schema and each field below it, in pre-order:
 * its slots, and the nulls among them. They are followed by two for each buffer, in the order of
 * the fields: where it begins in `bytes`, and its length in bytes without the zeros after it.
 *
 * Sets `out` to the room that all of it takes. If `length` is less than `bytes`, or `count` is less
 * than twice the sum of `nodes` and `buffers`, nothing is copied: call again with more room.
 *
 * Nothing is sent, and the writer goes on after each refusal. Returns ARROWSTREAM_OK, or
 * ARROWSTREAM_WRITE + 2 to 8 or 11; then nothing is copied, and `out` is left as it is. */
uint32_t arrowstream_writer_canonical(arrowstream_writer *writer, const arrowstream_batch *batch,
                                      uint8_t *bytes, size_t length, int64_t *numbers,
                                      size_t count, arrowstream_canonical *out);

/* Gives the values of the dictionary with this id, in place of those that were given before: one
 * column of `rows` values, with its nodes, buffers and body as in arrowstream_writer_buffers. Each
 * index in what that call sends refers to them. Nothing is sent.
 *
 * Returns ARROWSTREAM_OK; 25 if no field of the schema has the id; 26 to 34 if a reader refuses the
 * values (F25 to F34 of docs/FAULTS.md); ARROWSTREAM_MISUSE, also if a count is odd; or
 * ARROWSTREAM_WRITE + 10 or 11. After an error the values of before remain. */
uint32_t arrowstream_writer_dictionary(arrowstream_writer *writer, int64_t id, int64_t rows,
                                       const int64_t *nodes, size_t node_count,
                                       const int64_t *buffers, size_t buffer_count,
                                       const uint8_t *body, size_t length);

/* Sends a batch of `rows` rows from the caller's buffers, which lie in `body` in any layout that
 * the format allows (Message.fbs, RecordBatch; Arrow Columnar Format, "RecordBatch message").
 * `nodes` has two numbers for each field in pre-order: its slots, and the nulls among them.
 * `buffers` has two for each buffer, in the order of the fields: where it begins in `body`, and its
 * length in bytes. The counts are those of the numbers. The numbers that
 * arrowstream_writer_canonical copies are in this form.
 *
 * The batch is checked as a reader checks it, and sent as arrowstream_writer_columns sends one,
 * without pairs. Rows and pairs that were not sent remain.
 *
 * Returns ARROWSTREAM_OK; 26 to 34 if a reader refuses the batch (F26 to F34 of docs/FAULTS.md);
 * ARROWSTREAM_MISUSE, also if a count is odd; or ARROWSTREAM_WRITE + 2 to 11. */
uint32_t arrowstream_writer_buffers(arrowstream_writer *writer, int64_t rows, const int64_t *nodes,
                                    size_t node_count, const int64_t *buffers, size_t buffer_count,
                                    const uint8_t *body, size_t length);

/* Returns how often a dictionary with this id was sent: 0 before the schema, after the end, and at
 * NULL. */
uint64_t arrowstream_writer_times_sent(arrowstream_writer *writer, int64_t id);

/* Copies the values of the last dictionary with this id that the writer sent, each as a row of one
 * column, as arrowstream_writer_canonical copies the columns of a batch. The indices that it copies
 * for a batch count these values once arrowstream_writer_columns was called with the batch.
 *
 * Sets `out` to the room that all of it takes, with one node, or to zeros if none with this id was
 * sent. If `length` or `count` is less than that takes, nothing is copied.
 *
 * Nothing is sent, and the writer goes on after each refusal. Returns ARROWSTREAM_OK, or
 * ARROWSTREAM_WRITE + 6, 8 or 11; then nothing is copied, and `out` is left as it is. */
uint32_t arrowstream_writer_canonical_values(arrowstream_writer *writer, int64_t id,
                                             uint8_t *bytes, size_t length, int64_t *numbers,
                                             size_t count, arrowstream_canonical *out);

/* Sends the end-of-stream mark, and ends the writer. Returns ARROWSTREAM_MISUSE also if rows or
 * pairs were not sent, or a row or its list or struct has not ended. */
uint32_t arrowstream_writer_finish(arrowstream_writer *writer);

/* Returns the number of bytes that one call of arrowstream_writer_take can move. It is 0 only if no
 * bytes are ready. */
size_t arrowstream_writer_ready(arrowstream_writer *writer);

/* Moves the first of the ready bytes to `bytes`, and returns their number: that of
 * arrowstream_writer_ready, or `length` if that is less. More may be ready after it: the next call
 * begins where this one ended. */
size_t arrowstream_writer_take(arrowstream_writer *writer, uint8_t *bytes, size_t length);

/* Copies the line of the refusal that came last, such as "W4 OutOfRange at row 2 path 0", without a
 * line feed. ARROWSTREAM_WRITE_FAILED leaves the line of its cause. `text`, `length`, `wanted` and
 * the result are as in arrowstream_reader_schema; ARROWSTREAM_ABSENT before a refusal. */
uint32_t arrowstream_writer_line(const arrowstream_writer *writer, uint8_t *text, size_t length,
                                 size_t *wanted);

/* Frees a writer. Bytes that were not taken are dropped. */
void arrowstream_writer_free(arrowstream_writer *writer);

#ifdef __cplusplus
}
#endif
#endif
