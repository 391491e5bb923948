/* Imports schemas, arrays and streams by the Arrow C data interface. See arrowstream_cdata.h. */
#include "arrowstream_cdata.h"

#include <errno.h>
#include <inttypes.h>
#include <stdarg.h>
#include <stdio.h>
#include <stdlib.h>
#include <string.h>

static int fail(arrowstream_message *message, int error, const char *line, ...) {
    va_list words;
    va_start(words, line);
    if (message) vsnprintf(message->text, sizeof message->text, line, words);
    va_end(words);
    return error;
}

/* The error of a writer that returned a status other than ARROWSTREAM_OK. */
static int refused(arrowstream_message *message, const arrowstream_writer *writer, uint32_t status) {
    uint8_t text[sizeof message->text] = "";
    size_t wanted = 0;
    if (status == ARROWSTREAM_WRITE + 9 || status == ARROWSTREAM_WRITE_OUT_OF_MEMORY)
        return fail(message, ENOMEM, "out of memory");
    if (status == ARROWSTREAM_NOT_UTF8) return fail(message, EINVAL, "a text is not UTF-8");
    if (status == ARROWSTREAM_MISUSE)
        return fail(message, EINVAL, "the writer does not allow this call in its state");
    if (arrowstream_writer_line(writer, text, sizeof text - 1, &wanted) != ARROWSTREAM_OK
        || wanted >= sizeof text)
        return fail(message, EINVAL, "status %" PRIu32, status);
    text[wanted] = 0;
    return fail(message, EINVAL, "%s", (const char *)text);
}

/* ---- schemas --------------------------------------------------------------------------------- */

/* What a format string states. */
typedef enum {
    NOTHING,
    BOOL,
    INT,
    UINT,
    BYTES,
    TEXT,
    FIXED_BYTES,
    LIST,
    FIXED_LIST,
    STRUCT,
    UNSUPPORTED
} cell_kind;

typedef struct {
    cell_kind kind;
    size_t size;      /* bytes of a number or of fixed-size bytes, or slots of a fixed-size list */
    const char *name; /* the name in JSON */
    const char *unit; /* of a date or time, or NULL */
    const char *zone; /* of a timestamp, or NULL */
} type_facts;

static const char *unit_of(char letter) {
    switch (letter) {
    case 's': return "s";
    case 'm': return "ms";
    case 'u': return "us";
    case 'n': return "ns";
    default: return NULL;
    }
}

/* A type whose format begins with t: a date, time, timestamp or duration. */
static type_facts temporal_of(const char *format) {
    type_facts none = {.kind = UNSUPPORTED};
    if (strcmp(format, "tdD") == 0) return (type_facts){INT, 4, "date", "day", NULL};
    if (strcmp(format, "tdm") == 0) return (type_facts){INT, 8, "date", "ms", NULL};
    const char *unit = format[1] ? unit_of(format[2]) : NULL;
    if (!unit) return none;
    if (format[1] == 's' && format[3] == ':')
        return (type_facts){INT, 8, "timestamp", unit, format + 4};
    if (format[3] != 0) return none;
    if (format[1] == 'D') return (type_facts){INT, 8, "duration", unit, NULL};
    if (format[1] == 't')
        return (type_facts){INT, unit[0] == 's' || unit[0] == 'm' ? 4 : 8, "time", unit, NULL};
    return none;
}

/* A type whose format is a word, a colon and a size. */
static type_facts sized_of(const char *digits, cell_kind kind, const char *name) {
    char *end = NULL;
    errno = 0;
    unsigned long long size = strtoull(digits, &end, 10);
    if (digits[0] < '0' || digits[0] > '9' || *end || errno || size > INT32_MAX)
        kind = UNSUPPORTED;
    return (type_facts){kind, (size_t)size, name, NULL, NULL};
}

static type_facts facts_of(const char *format) {
    static const char letters[] = "cCsSiIlL";
    const char *letter = strchr(letters, format[0]);
    if (format[0] == 't') return temporal_of(format);
    if (strncmp(format, "w:", 2) == 0)
        return sized_of(format + 2, FIXED_BYTES, "fixed_size_binary");
    if (strncmp(format, "+w:", 3) == 0) return sized_of(format + 3, FIXED_LIST, "fixed_size_list");
    if (strcmp(format, "+l") == 0) return (type_facts){LIST, 0, "list", NULL, NULL};
    if (strcmp(format, "+s") == 0) return (type_facts){STRUCT, 0, "struct", NULL, NULL};
    if (format[0] == 0 || format[1] != 0) return (type_facts){.kind = UNSUPPORTED};
    if (letter) {
        size_t place = (size_t)(letter - letters), size = (size_t)1 << place / 2;
        return place % 2 ? (type_facts){UINT, size, "uint", NULL, NULL}
                         : (type_facts){INT, size, "int", NULL, NULL};
    }
    switch (format[0]) {
    case 'n': return (type_facts){NOTHING, 0, "null", NULL, NULL};
    case 'b': return (type_facts){BOOL, 0, "bool", NULL, NULL};
    case 'z': return (type_facts){BYTES, 0, "binary", NULL, NULL};
    case 'u': return (type_facts){TEXT, 0, "utf8", NULL, NULL};
    default: return (type_facts){.kind = UNSUPPORTED};
    }
}

/* A text that grows. If memory ran out, `failed` is set, and nothing more is added. */
typedef struct {
    char *bytes;
    size_t used, room;
    int failed;
} text_buffer;

static void put_bytes(text_buffer *text, const char *bytes, size_t length) {
    if (text->failed || length == 0) return;
    if (text->room - text->used < length) {
        size_t room = 2 * (text->used + length) + 256;
        char *grown = realloc(text->bytes, room);
        text->failed = !grown;
        if (!grown) return;
        text->bytes = grown;
        text->room = room;
    }
    memcpy(text->bytes + text->used, bytes, length);
    text->used += length;
}

static void put(text_buffer *text, const char *words) { put_bytes(text, words, strlen(words)); }

static void put_number(text_buffer *text, long long number) {
    char digits[24];
    snprintf(digits, sizeof digits, "%lld", number);
    put(text, digits);
}

/* A JSON string (RFC 8259, section 7). */
static void put_string(text_buffer *text, const char *bytes, size_t length) {
    char escaped[8];
    put(text, "\"");
    for (size_t i = 0; i < length; i++) {
        if (bytes[i] == '"' || bytes[i] == '\\' || (unsigned char)bytes[i] < 0x20) {
            snprintf(escaped, sizeof escaped, "\\u%04x", (unsigned char)bytes[i]);
            put(text, escaped);
        } else {
            put_bytes(text, bytes + i, 1);
        }
    }
    put(text, "\"");
}

static void put_type(text_buffer *text, const type_facts *type) {
    put(text, "[\"");
    put(text, type->name);
    put(text, "\"");
    if (type->unit) {
        put(text, ",");
        put_string(text, type->unit, strlen(type->unit));
    } else if (type->kind == INT || type->kind == UINT) {
        put(text, ",");
        put_number(text, (long long)(8 * type->size));
    } else if (type->kind == FIXED_BYTES || type->kind == FIXED_LIST) {
        put(text, ",");
        put_number(text, (long long)type->size);
    }
    if (type->zone) {
        put(text, ",");
        if (type->zone[0])
            put_string(text, type->zone, strlen(type->zone));
        else
            put(text, "null");
    }
    put(text, "]");
}

/* Takes a length and as many bytes from encoded metadata, and returns what follows them. */
static const char *put_side(text_buffer *text, const char *at) {
    int32_t length = 0;
    memcpy(&length, at, sizeof length);
    put_string(text, at + sizeof length, length > 0 ? (size_t)length : 0);
    return at + sizeof length + (length > 0 ? length : 0);
}

static void put_pairs(text_buffer *text, const char *metadata) {
    int32_t pairs = 0;
    put(text, "[");
    if (metadata) memcpy(&pairs, metadata, sizeof pairs);
    const char *at = metadata + (metadata ? sizeof pairs : 0);
    for (int32_t pair = 0; pair < pairs; pair++) {
        put(text, pair > 0 ? ",[" : "[");
        at = put_side(text, at);
        put(text, ",");
        at = put_side(text, at);
        put(text, "]");
    }
    put(text, "]");
}

typedef struct {
    text_buffer text;
    long long dictionaries;
    arrowstream_message *message;
} schema_text;

static int unsupported(arrowstream_message *message, const struct ArrowSchema *field) {
    return fail(message, ENOTSUP, "the type '%.60s' of field '%.60s' is not supported",
                field->format, field->name ? field->name : "");
}

/* The type of a field's values, and the encoding of its dictionary if it has one. */
static int put_encoding(schema_text *to, const struct ArrowSchema *field) {
    const struct ArrowSchema *values = field->dictionary ? field->dictionary : field;
    type_facts type = facts_of(values->format), index = facts_of(field->format);
    if (type.kind == UNSUPPORTED) return unsupported(to->message, values);
    put(&to->text, ",\"type\":");
    put_type(&to->text, &type);
    put(&to->text, ",\"dictionary\":");
    if (!field->dictionary) {
        put(&to->text, "null");
        return 0;
    }
    if ((index.kind != INT && index.kind != UINT) || index.unit)
        return unsupported(to->message, field);
    put(&to->text, "[");
    put_number(&to->text, to->dictionaries++);
    put(&to->text, ",");
    put_type(&to->text, &index);
    put(&to->text, field->flags & ARROW_FLAG_DICTIONARY_ORDERED ? ",true]" : ",false]");
    return 0;
}

/* A field, and all below it. */
static int put_field(schema_text *to, const struct ArrowSchema *field, int is_first) {
    const char *name = field->name ? field->name : "";
    put(&to->text, is_first ? "{\"name\":" : ",{\"name\":");
    put_string(&to->text, name, strlen(name));
    int error = put_encoding(to, field);
    put(&to->text, field->flags & ARROW_FLAG_NULLABLE ? ",\"nullable\":true" : ",\"nullable\":false");
    put(&to->text, ",\"children\":");
    put_number(&to->text, field->n_children);
    put(&to->text, ",\"metadata\":");
    put_pairs(&to->text, field->metadata);
    put(&to->text, "}");
    for (int64_t i = 0; i < field->n_children && !error; i++)
        error = put_field(to, field->children[i], 0);
    return error;
}

/* The JSON of a schema. */
static int put_schema(schema_text *to, const struct ArrowSchema *schema) {
    if (strcmp(schema->format, "+s") != 0 || schema->dictionary)
        return fail(to->message, EINVAL, "the schema is no struct of columns");
    put(&to->text, "{\"fields\":[");
    int error = 0;
    for (int64_t i = 0; i < schema->n_children && !error; i++)
        error = put_field(to, schema->children[i], i == 0);
    put(&to->text, "],\"metadata\":");
    put_pairs(&to->text, schema->metadata);
    put(&to->text, "}");
    return !error && to->text.failed ? fail(to->message, ENOMEM, "out of memory") : error;
}

int arrowstream_import_schema(arrowstream_writer *writer, const struct ArrowSchema *schema,
                              arrowstream_message *message) {
    schema_text to = {.message = message};
    int error = put_schema(&to, schema);
    if (!error) {
        uint32_t status =
            arrowstream_writer_schema(writer, (const uint8_t *)to.text.bytes, to.text.used);
        if (status != ARROWSTREAM_OK) error = refused(message, writer, status);
    }
    free(to.text.bytes);
    return error;
}

/* ---- arrays ---------------------------------------------------------------------------------- */

/* A record batch that is put together: the counts of its nodes, the ranges of its buffers, and its
 * body. */
typedef struct {
    text_buffer nodes, buffers, body;
    arrowstream_message *message;
} batch_parts;

static void free_parts(batch_parts *parts) {
    free(parts->nodes.bytes);
    free(parts->buffers.bytes);
    free(parts->body.bytes);
}

static void put_pair(text_buffer *to, int64_t first, int64_t second) {
    put_bytes(to, (const char *)&first, sizeof first);
    put_bytes(to, (const char *)&second, sizeof second);
}

/* Ends the buffer that begins at `start` of the body: notes its range, and adds zeros up to a
 * multiple of 8 bytes. */
static void end_buffer(batch_parts *to, size_t start) {
    static const char zeros[8];
    put_pair(&to->buffers, (int64_t)start, (int64_t)(to->body.used - start));
    put_bytes(&to->body, zeros, (8 - to->body.used % 8) % 8);
}

static void put_buffer(batch_parts *to, const uint8_t *bytes, size_t length) {
    size_t start = to->body.used;
    put_bytes(&to->body, (const char *)bytes, length);
    end_buffer(to, start);
}

/* Puts these bits at the beginning of a byte, and returns how many of them are set. */
static int64_t put_bits(text_buffer *to, const uint8_t *bits, int64_t first, int64_t count) {
    int64_t set = 0;
    for (int64_t done = 0; done < count; done += 8) {
        unsigned byte = 0;
        for (int64_t at = first + done; at < first + count && at < first + done + 8; at++) {
            unsigned bit = bits[at / 8] >> at % 8 & 1;
            byte |= bit << (at - first - done);
            set += bit;
        }
        put_bytes(to, &(char){(char)byte}, 1);
    }
    return set;
}

/* The number of buffers of a type. */
static int64_t buffers_of(cell_kind kind) {
    if (kind == NOTHING) return 0;
    if (kind == STRUCT || kind == FIXED_LIST) return 1;
    return kind == BYTES || kind == TEXT ? 3 : 2;
}

/* Puts the node of a column, and its validity bitmap, which is empty if no slot is null. */
static void put_node(batch_parts *to, cell_kind kind, const struct ArrowArray *array,
                     int64_t first, int64_t count) {
    const uint8_t *bitmap = array->n_buffers > 0 ? array->buffers[0] : NULL;
    size_t start = to->body.used;
    int64_t valid = bitmap ? put_bits(&to->body, bitmap, first, count) : count;
    if (valid == count) to->body.used = start;
    put_pair(&to->nodes, count, kind == NOTHING ? count : count - valid);
    if (kind != NOTHING) end_buffer(to, start);
}

static int32_t offset_at(const struct ArrowArray *array, int64_t slot) {
    int32_t offset;
    memcpy(&offset, (const uint8_t *)array->buffers[1] + (size_t)slot * sizeof offset,
           sizeof offset);
    return offset;
}

/* Puts the offsets of these slots, counted from the first of them, which `from` is set to, and
 * `items` to what they span. */
static int put_offsets(batch_parts *to, const struct ArrowArray *array, int64_t first,
                       int64_t count, int64_t *from, int64_t *items) {
    size_t start = to->body.used;
    *from = *items = 0;
    if (count > 0) {
        *from = offset_at(array, first);
        *items = offset_at(array, first + count) - *from;
        if (*from < 0 || *items < 0) return fail(to->message, EINVAL, "offsets do not ascend");
    }
    for (int64_t slot = first; count > 0 && slot <= first + count; slot++) {
        int32_t offset = (int32_t)(offset_at(array, slot) - *from);
        put_bytes(&to->body, (const char *)&offset, sizeof offset);
    }
    end_buffer(to, start);
    return 0;
}

static int put_column(batch_parts *to, const struct ArrowSchema *field,
                      const struct ArrowArray *array, int64_t first, int64_t count);

static int put_members(batch_parts *to, const struct ArrowSchema *field,
                       const struct ArrowArray *array, int64_t first, int64_t count) {
    int error = 0;
    for (int64_t i = 0; i < field->n_children && !error; i++)
        error = put_column(to, field->children[i], array->children[i], first, count);
    return error;
}

/* Puts what follows the validity bitmap. The slots are counted from the beginning of the buffers. */
static int put_values(batch_parts *to, const struct ArrowSchema *field,
                      const struct ArrowArray *array, const type_facts *type, int64_t first,
                      int64_t count) {
    const uint8_t *values = array->n_buffers > 1 ? array->buffers[1] : NULL;
    int64_t size = (int64_t)type->size, from = 0, items = 0;
    size_t start = to->body.used;
    int error = 0;
    switch (type->kind) {
    case BOOL:
        put_bits(&to->body, values, first, count);
        end_buffer(to, start);
        return 0;
    case INT:
    case UINT:
    case FIXED_BYTES:
        put_buffer(to, count * size > 0 ? values + first * size : NULL, (size_t)(count * size));
        return 0;
    case BYTES:
    case TEXT:
        error = put_offsets(to, array, first, count, &from, &items);
        if (error) return error;
        values = items > 0 ? (const uint8_t *)array->buffers[2] + from : NULL;
        put_buffer(to, values, (size_t)items);
        return 0;
    case LIST:
        error = put_offsets(to, array, first, count, &from, &items);
        return error ? error : put_members(to, field, array, from, items);
    case FIXED_LIST: return put_members(to, field, array, first * size, count * size);
    case STRUCT: return put_members(to, field, array, first, count);
    default: return 0;
    }
}

/* Puts slots of a column, and of those below it. The slots are counted from the array's offset. */
static int put_column(batch_parts *to, const struct ArrowSchema *field,
                      const struct ArrowArray *array, int64_t first, int64_t count) {
    type_facts type = facts_of(field->format);
    if (type.kind == UNSUPPORTED) return unsupported(to->message, field);
    if (first < 0 || count < 0 || first > array->length || count > array->length - first)
        return fail(to->message, EINVAL, "an array is shorter than another states");
    if (array->n_buffers != buffers_of(type.kind) || array->n_children != field->n_children
        || !array->dictionary != !field->dictionary)
        return fail(to->message, EINVAL, "an array has other buffers or children than its type");
    put_node(to, type.kind, array, first + array->offset, count);
    return put_values(to, field, array, &type, first + array->offset, count);
}

/* ---- messages -------------------------------------------------------------------------------- */

/* Takes arrays of one schema as batches of a reader, which validates them. */
typedef struct {
    arrowstream_reader *reader;
    long long dictionaries;
    arrowstream_message *message;
} array_reader;

static int feed(array_reader *to, const void *bytes, size_t length) {
    arrowstream_progress progress = {.size = sizeof progress};
    for (size_t done = 0; done < length; done += progress.taken) {
        uint8_t text[sizeof to->message->text] = "";
        size_t wanted = 0;
        uint32_t status = arrowstream_reader_feed(to->reader, (const uint8_t *)bytes + done,
                                                  length - done, &progress);
        if (status == ARROWSTREAM_OK) continue;
        if (status == ARROWSTREAM_OUT_OF_MEMORY)
            return fail(to->message, ENOMEM, "out of memory");
        arrowstream_reader_line(to->reader, text, sizeof text - 1, &wanted);
        return fail(to->message, EINVAL, "%s", (const char *)text);
    }
    return 0;
}

static void set_16(uint8_t *at, unsigned number) { memcpy(at, &(uint16_t){(uint16_t)number}, 2); }
static void set_32(uint8_t *at, size_t number) { memcpy(at, &(uint32_t){(uint32_t)number}, 4); }
static void set_64(uint8_t *at, int64_t number) { memcpy(at, &number, 8); }

/* The bytes of a message before its vectors: a continuation mark, the size of the metadata, and a
 * FlatBuffer whose tables are at fixed places (Message.fbs, tables Message, DictionaryBatch and
 * RecordBatch; metadata version V5). */
enum { PREFIX = 8, HEAD = 104, MESSAGE = 40, DICTIONARY = 64, BATCH = 80, NODES = 100 };

static void set_head(uint8_t *head, const batch_parts *parts, int64_t rows, int64_t id) {
    static const uint16_t fields[] = {12, 20, 16, 18, 4, 8, 10, 20, 8, 4, 16, 8, 16, 8, 4};
    uint8_t *at = head + PREFIX;
    size_t nodes = parts->nodes.used, buffers = parts->buffers.used;
    set_32(head, UINT32_MAX);
    set_32(head + 4, HEAD + nodes + 8 + buffers);
    set_32(at, MESSAGE);
    memcpy(at + 4, fields, sizeof fields);
    set_32(at + MESSAGE, MESSAGE - 4);
    set_32(at + MESSAGE + 4, (id < 0 ? BATCH : DICTIONARY) - (MESSAGE + 4));
    set_64(at + MESSAGE + 8, (int64_t)parts->body.used);
    set_16(at + MESSAGE + 16, 4);
    at[MESSAGE + 18] = id < 0 ? 3 : 2;
    set_32(at + DICTIONARY, DICTIONARY - 26);
    set_32(at + DICTIONARY + 4, BATCH - (DICTIONARY + 4));
    set_64(at + DICTIONARY + 8, id);
    set_32(at + BATCH, BATCH - 16);
    set_32(at + BATCH + 4, NODES - (BATCH + 4));
    set_64(at + BATCH + 8, rows);
    set_32(at + BATCH + 16, HEAD + nodes + 4 - (BATCH + 16));
    set_32(at + NODES, nodes / 16);
}

/* Feeds the message of a record batch, or of a dictionary with this id from 0. */
static int feed_message(array_reader *to, const batch_parts *parts, int64_t rows, int64_t id) {
    uint8_t head[PREFIX + HEAD] = {0}, between[8] = {0};
    if (parts->nodes.failed || parts->buffers.failed || parts->body.failed)
        return fail(to->message, ENOMEM, "out of memory");
    set_head(head, parts, rows, id);
    set_32(between + 4, parts->buffers.used / 16);
    int error = feed(to, head, sizeof head);
    if (!error) error = feed(to, parts->nodes.bytes, parts->nodes.used);
    if (!error) error = feed(to, between, sizeof between);
    if (!error) error = feed(to, parts->buffers.bytes, parts->buffers.used);
    return error ? error : feed(to, parts->body.bytes, parts->body.used);
}

/* Feeds the values of a field's dictionary, and of those below it. */
static int feed_dictionaries(array_reader *to, const struct ArrowSchema *field,
                             const struct ArrowArray *array) {
    int error = 0;
    if (field->dictionary && array->dictionary) {
        batch_parts parts = {.message = to->message};
        int64_t length = array->dictionary->length;
        error = put_column(&parts, field->dictionary, array->dictionary, 0, length);
        if (!error) error = feed_message(to, &parts, length, to->dictionaries++);
        free_parts(&parts);
    }
    for (int64_t i = 0; i < field->n_children && i < array->n_children && !error; i++)
        error = feed_dictionaries(to, field->children[i], array->children[i]);
    return error;
}

/* Fails if a row is null, which a record batch cannot state. */
static int check_rows(const struct ArrowArray *array, arrowstream_message *message) {
    const uint8_t *bitmap = array->n_buffers > 0 ? array->buffers[0] : NULL;
    for (int64_t row = 0; bitmap && row < array->length; row++) {
        int64_t slot = row + array->offset;
        if (!(bitmap[slot / 8] >> slot % 8 & 1))
            return fail(message, EINVAL, "row %" PRId64 " is null", row);
    }
    return 0;
}

/* Feeds an array as a record batch after its dictionaries. */
static int feed_array(array_reader *to, const struct ArrowSchema *schema,
                      const struct ArrowArray *array) {
    batch_parts parts = {.message = to->message};
    to->dictionaries = 0;
    int error = check_rows(array, to->message);
    if (!error) error = feed_dictionaries(to, schema, array);
    if (!error) error = put_members(&parts, schema, array, array->offset, array->length);
    if (!error) error = feed_message(to, &parts, array->length, -1);
    free_parts(&parts);
    return error;
}

/* Feeds the message of a schema, which a writer makes. */
static int feed_schema(array_reader *to, const arrowstream_limits *limits,
                       const text_buffer *schema) {
    uint8_t piece[4096];
    arrowstream_writer *writer = NULL;
    arrowstream_writer_open(limits, &writer);
    if (!writer) return fail(to->message, ENOMEM, "out of memory");
    uint32_t status =
        arrowstream_writer_schema(writer, (const uint8_t *)schema->bytes, schema->used);
    int error = status == ARROWSTREAM_OK ? 0 : refused(to->message, writer, status);
    for (size_t count = 1; !error && count > 0;) {
        count = arrowstream_writer_take(writer, piece, sizeof piece);
        error = feed(to, piece, count);
    }
    arrowstream_writer_free(writer);
    return error;
}

static int open_array_reader(array_reader *to, const struct ArrowSchema *schema) {
    arrowstream_limits most;
    memset(&most, 0xff, sizeof most);
    most.size = sizeof most;
    arrowstream_reader_open(&most, &to->reader);
    if (!to->reader) return fail(to->message, ENOMEM, "out of memory");
    schema_text text = {.message = to->message};
    int error = put_schema(&text, schema);
    if (!error) error = feed_schema(to, &most, &text.text);
    free(text.text.bytes);
    return error;
}

/* Sends an array as a batch that the reader takes. */
static int send_array(array_reader *from, arrowstream_writer *writer,
                      const struct ArrowSchema *schema, const struct ArrowArray *array) {
    arrowstream_batch *batch = NULL;
    if (array->n_children != schema->n_children)
        return fail(from->message, EINVAL, "the array has not as many columns as the schema");
    int error = feed_array(from, schema, array);
    if (error) return error;
    if (arrowstream_reader_take(from->reader, &batch) != ARROWSTREAM_OK)
        return fail(from->message, ENOMEM, "out of memory");
    uint32_t status = arrowstream_writer_columns(writer, batch);
    arrowstream_reader_reuse(from->reader, batch);
    return status == ARROWSTREAM_OK ? 0 : refused(from->message, writer, status);
}

int arrowstream_import_batch(arrowstream_writer *writer, const struct ArrowSchema *schema,
                             const struct ArrowArray *array, arrowstream_message *message) {
    array_reader reader = {.message = message};
    int error = open_array_reader(&reader, schema);
    if (!error) error = send_array(&reader, writer, schema, array);
    arrowstream_reader_free(reader.reader);
    return error;
}

/* ---- streams --------------------------------------------------------------------------------- */

/* The error of a stream, with the line that it gives. */
static int stream_failed(struct ArrowArrayStream *stream, int error, arrowstream_message *message) {
    const char *line = stream->get_last_error(stream);
    return fail(message, error, "%s", line ? line : "the stream failed");
}

/* Sends the arrays of a stream. */
static int import_arrays(array_reader *reader, arrowstream_writer *writer,
                         const struct ArrowSchema *schema, struct ArrowArrayStream *stream) {
    for (;;) {
        struct ArrowArray array = {.release = NULL};
        int error = stream->get_next(stream, &array);
        if (error) return stream_failed(stream, error, reader->message);
        if (!array.release) return 0;
        error = send_array(reader, writer, schema, &array);
        array.release(&array);
        if (error) return error;
    }
}

int arrowstream_import_stream(arrowstream_writer *writer, struct ArrowArrayStream *stream,
                              arrowstream_message *message) {
    struct ArrowSchema schema = {.release = NULL};
    int error = stream->get_schema(stream, &schema);
    if (error) return stream_failed(stream, error, message);
    array_reader reader = {.message = message};
    error = arrowstream_import_schema(writer, &schema, message);
    if (!error) error = open_array_reader(&reader, &schema);
    if (!error) error = import_arrays(&reader, writer, &schema, stream);
    arrowstream_reader_free(reader.reader);
    schema.release(&schema);
    return error;
}
