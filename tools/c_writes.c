/* Test equipment: makes every call of a writer of include/arrowstream.h, by a script with the
 * status and the line that each call has to answer.
 *
 *     c_writes stream     writes the stream of the script to standard output
 *     c_writes copy       writes the columns of the stream on standard input to standard output,
 *                         and compares each body with the one that is copied to one block
 *     c_writes growths    refuses each growth of memory in turn, and prints their number
 *
 * With a refused growth each call answers as without it, or that memory ran out; from then on the
 * writer has ended. Where no call reports the growth, as of the list of memory that a batch leaves
 * for the next one, the stream is the same. The program is linked with --wrap=malloc and
 * --wrap=realloc. */
#include "arrowstream.h"

#include <stdio.h>
#include <stdlib.h>
#include <string.h>

/* TAKEN: after this batch, all bytes are taken. */
enum {
    MOST = 1 << 20,
    FILL = 0xa5,
    PIECE = 7,
    TAKEN = 1,
    OUT_OF_MEMORY_IN_SINK = ARROWSTREAM_WRITE + 9
};

void *__real_malloc(size_t count);
void *__real_realloc(void *block, size_t count);
void *__wrap_malloc(size_t count);
void *__wrap_realloc(void *block, size_t count);

/* The growths that were asked for, and the one that is refused. */
static unsigned long asked, refused;

/* The checksum of the bytes that were taken (FNV-1a). */
static uint64_t checksum;

static int is_refused(void) { return ++asked == refused; }

void *__wrap_malloc(size_t count) { return is_refused() ? NULL : __real_malloc(count); }

void *__wrap_realloc(void *block, size_t count) {
    return is_refused() ? NULL : __real_realloc(block, count);
}

static void stop(const char *why, size_t step) {
    fprintf(stderr, "c_writes: %s, step %zu, growth %lu\n", why, step, refused);
    exit(1);
}

#define FIELD(name, type, nullable, children, dictionary)                                        \
    "{\"name\":\"" name "\",\"type\":[" type "],\"nullable\":" nullable ",\"children\":" children \
    ",\"dictionary\":" dictionary ",\"metadata\":[]}"

static const char schema[] = "{\"fields\":["
    FIELD("a", "\"int\",8", "false", "0", "null") ","
    FIELD("b", "\"uint\",64", "true", "0", "null") ","
    FIELD("c", "\"bool\"", "true", "0", "null") ","
    FIELD("d", "\"utf8\"", "true", "0", "[1,[\"int\",8],false]") ","
    FIELD("e", "\"binary\"", "true", "0", "null") ","
    FIELD("f", "\"list\"", "true", "1", "null") ","
    FIELD("item", "\"utf8\"", "true", "0", "null") ","
    FIELD("g", "\"struct\"", "true", "1", "null") ","
    FIELD("member", "\"int\",32", "true", "0", "null") "],\"metadata\":[]}";

/* A call by its letter, what it is given, and what it answers. An empty text is given as NULL. */
typedef struct {
    char call;
    uint32_t status;
    int64_t number;
    const char *text, *line;
} step;

/* A row of which the first and the fourth cell are given. */
#define ROW(first, fourth)                                                                    \
    {'i', 0, first, NULL, NULL}, {'u', 0, -1, NULL, NULL}, {'b', 0, 1, NULL, NULL},           \
    {'t', 0, 0, fourth, NULL}, {'x', 0, 0, "\xff\x01", NULL}, {'[', 0, 0, NULL, NULL},        \
    {'t', 0, 0, "one", NULL}, {'n', 0, 0, NULL, NULL}, {'e', 0, 0, NULL, NULL},               \
    {'{', 0, 0, NULL, NULL}, {'i', 0, -5, NULL, NULL}, {'e', 0, 0, NULL, NULL}

static const step steps[] = {
    {'n', ARROWSTREAM_MISUSE, 0, NULL, "call out of order"},
    {'f', ARROWSTREAM_MISUSE, 0, NULL, NULL},
    {'d', ARROWSTREAM_MISUSE, 0, NULL, NULL},
    {'D', ARROWSTREAM_MISUSE, 0, NULL, NULL},
    {'S', ARROWSTREAM_TEXT + 6, 0, "{\"fields\":[]", "X6 BadSchemaJson"},
    {'S', ARROWSTREAM_TEXT + 6, 0, "\xff", "X6 BadSchemaJson"},
    {'S', ARROWSTREAM_TEXT + 6, 0, "", "X6 BadSchemaJson"},
    {'S', ARROWSTREAM_OK, 0, schema, NULL},
    {'S', ARROWSTREAM_MISUSE, 0, schema, NULL},
    {'e', ARROWSTREAM_MISUSE, 0, NULL, "call out of order"},
    {'t', ARROWSTREAM_OK, 0, "", NULL},
    {'x', ARROWSTREAM_OK, 0, "", NULL},
    {'d', ARROWSTREAM_OK, 0, NULL, NULL},
    ROW(8, "Ulm"),
    {'r', ARROWSTREAM_OK, 0, NULL, NULL},
    {'p', ARROWSTREAM_OK, 0, "gone", NULL},
    ROW(9, "Ulm"),
    {'[', ARROWSTREAM_OK, 0, NULL, NULL},
    {'D', ARROWSTREAM_OK, 0, NULL, NULL},
    ROW(1, "Bonn"),
    {'r', ARROWSTREAM_OK, 0, NULL, NULL},
    ROW(7, "Ulm"),
    {'{', ARROWSTREAM_OK, 0, NULL, NULL},
    {'i', ARROWSTREAM_OK, 7, NULL, NULL},
    {'d', ARROWSTREAM_OK, 0, NULL, NULL},
    {'d', ARROWSTREAM_OK, 0, NULL, NULL},
    ROW(300, "Bonn"),
    {'r', ARROWSTREAM_WRITE + 4, 0, NULL, "W4 OutOfRange at row 1 path 0"},
    {'i', ARROWSTREAM_OK, 1, NULL, NULL},
    {'r', ARROWSTREAM_WRITE + 2, 0, NULL, "W2 RowWidth at row 1 path"},
    {'r', ARROWSTREAM_WRITE + 2, 0, NULL, NULL},
    {'t', ARROWSTREAM_NOT_UTF8, 0, "\xff", "text is not UTF-8"},
    ROW(2, "Bonn"),
    {'[', ARROWSTREAM_OK, 0, NULL, NULL},
    {'r', ARROWSTREAM_MISUSE, 0, NULL, NULL},
    {'e', ARROWSTREAM_OK, 0, NULL, NULL},
    {'r', ARROWSTREAM_WRITE + 2, 0, NULL, NULL},
    ROW(3, "Kiel"),
    {'r', ARROWSTREAM_OK, 0, NULL, NULL},
    {'p', ARROWSTREAM_OK, 0, "one", NULL},
    {'p', ARROWSTREAM_NOT_UTF8, 0, "\xff", "text is not UTF-8"},
    {'p', ARROWSTREAM_OK, 0, "", NULL},
    {'p', ARROWSTREAM_OK, 0, "one", NULL},
    {'i', ARROWSTREAM_OK, 4, NULL, NULL},
    {'f', ARROWSTREAM_MISUSE, 0, NULL, "call out of order"},
    {'s', ARROWSTREAM_OK, TAKEN, NULL, NULL},
    {'n', ARROWSTREAM_OK, 0, NULL, NULL},
    {'n', ARROWSTREAM_OK, 0, NULL, NULL},
    {'n', ARROWSTREAM_OK, 0, NULL, NULL},
    {'n', ARROWSTREAM_OK, 0, NULL, NULL},
    {'n', ARROWSTREAM_OK, 0, NULL, NULL},
    {'n', ARROWSTREAM_OK, 0, NULL, NULL},
    {'r', ARROWSTREAM_OK, 0, NULL, NULL},
    {'f', ARROWSTREAM_MISUSE, 0, NULL, NULL},
    {'s', ARROWSTREAM_OK, 0, NULL, NULL},
    {'p', ARROWSTREAM_OK, 0, "two", NULL},
    {'f', ARROWSTREAM_MISUSE, 0, NULL, "call out of order"},
    {'s', ARROWSTREAM_OK, 0, NULL, NULL},
    {'f', ARROWSTREAM_OK, 0, NULL, NULL},
    {'n', ARROWSTREAM_WRITE_FAILED, 0, NULL, "call out of order"},
    {'f', ARROWSTREAM_WRITE_FAILED, 0, NULL, NULL},
    {'d', ARROWSTREAM_WRITE_FAILED, 0, NULL, NULL},
    {'D', ARROWSTREAM_WRITE_FAILED, 0, NULL, NULL},
};

static uint32_t make(arrowstream_writer *writer, const step *now) {
    size_t length = now->text ? strlen(now->text) : 0;
    const uint8_t *text = length > 0 ? (const uint8_t *)now->text : NULL;
    switch (now->call) {
    case 'S': return arrowstream_writer_schema(writer, text, length);
    case 'n': return arrowstream_writer_null(writer);
    case 'b': return arrowstream_writer_bool(writer, (uint32_t)now->number);
    case 'i': return arrowstream_writer_int(writer, now->number);
    case 'u': return arrowstream_writer_uint(writer, (uint64_t)now->number);
    case 'x': return arrowstream_writer_bytes(writer, text, length);
    case 't': return arrowstream_writer_text(writer, text, length);
    case '[': return arrowstream_writer_begin_list(writer);
    case '{': return arrowstream_writer_begin_struct(writer);
    case 'e': return arrowstream_writer_end(writer);
    case 'r': return arrowstream_writer_row(writer);
    case 'p': return arrowstream_writer_pair(writer, text, length, text, length);
    case 's': return arrowstream_writer_send(writer);
    case 'd': return arrowstream_writer_drop_row(writer);
    case 'D': return arrowstream_writer_drop_batch(writer);
    default: return arrowstream_writer_finish(writer);
    }
}

/* Compares the line with the one that is wanted. Returns whether memory ran out. */
static int is_line_lost(arrowstream_writer *writer, const char *line, size_t at) {
    uint8_t text[64];
    size_t wanted = 0;
    memset(text, FILL, sizeof text);
    uint32_t status = arrowstream_writer_line(writer, NULL, 0, &wanted);
    if (status == ARROWSTREAM_OUT_OF_MEMORY) return 1;
    if (status != ARROWSTREAM_OK || wanted != strlen(line)) stop("another size of a line", at);
    status = arrowstream_writer_line(writer, text, 3, &wanted);
    if (status == ARROWSTREAM_OUT_OF_MEMORY) return 1;
    if (status != ARROWSTREAM_OK || wanted != strlen(line) || text[0] != FILL)
        stop("a line cut", at);
    status = arrowstream_writer_line(writer, text, sizeof text, &wanted);
    if (status == ARROWSTREAM_OUT_OF_MEMORY) return 1;
    if (status != ARROWSTREAM_OK || memcmp(text, line, wanted) != 0) stop("another line", at);
    return 0;
}

/* Takes all bytes, a few at a time, and writes them if asked to. */
static void take(arrowstream_writer *writer, int writes) {
    uint8_t bytes[PIECE + 1];
    for (size_t ready = arrowstream_writer_ready(writer); ready > 0;
         ready = arrowstream_writer_ready(writer)) {
        memset(bytes, FILL, sizeof bytes);
        size_t count = arrowstream_writer_take(writer, bytes, PIECE);
        if (count != (ready < PIECE ? ready : PIECE)) stop("another count", ready);
        if (bytes[count] != FILL) stop("a byte past the end", ready);
        for (size_t at = 0; at < count; at++) checksum = (checksum ^ bytes[at]) * 0x100000001b3;
        if (writes && fwrite(bytes, 1, count, stdout) != count) stop("no output", ready);
    }
    if (arrowstream_writer_take(writer, NULL, 0) != 0) stop("bytes of no room", 0);
    if (arrowstream_writer_take(writer, bytes, PIECE) != 0) stop("bytes after the last", 0);
}

/* Makes all calls, and takes what the first batch made. Returns whether memory ran out. */
static int run(arrowstream_writer *writer, int writes) {
    int lost = 0;
    size_t wanted = 1;
    if (arrowstream_writer_line(writer, NULL, 0, &wanted) != ARROWSTREAM_ABSENT || wanted != 0)
        stop("a line without an error", 0);
    for (size_t at = 0; at < sizeof steps / sizeof *steps; at++) {
        uint32_t status = make(writer, &steps[at]);
        if (status == ARROWSTREAM_WRITE_OUT_OF_MEMORY || status == OUT_OF_MEMORY_IN_SINK) {
            if (make(writer, &steps[at]) != ARROWSTREAM_WRITE_FAILED) stop("it goes on", at);
            return 1;
        }
        if (status != steps[at].status) stop("another status", at);
        if (steps[at].line) lost |= is_line_lost(writer, steps[at].line, at);
        if (steps[at].call == 's' && steps[at].number == TAKEN) take(writer, writes);
    }
    return lost;
}

/* Runs the script. Returns whether memory ran out. */
static int write_stream(int writes) {
    arrowstream_limits limits = {.size = sizeof limits};
    arrowstream_writer *writer = NULL;
    arrowstream_limits_standard(&limits);
    arrowstream_writer_open(&limits, &writer);
    if (!writer) return 1;
    int lost = run(writer, writes);
    take(writer, writes);
    arrowstream_writer_free(writer);
    return lost;
}

/* Makes each call at NULL. */
static void call_at_null(void) {
    uint8_t bytes[2] = {FILL, FILL};
    size_t wanted = 1, count = sizeof steps / sizeof *steps;
    for (size_t at = 0; at < count; at++)
        if (make(NULL, &steps[at]) != ARROWSTREAM_MISUSE) stop("another status at NULL", at);
    if (arrowstream_writer_columns(NULL, NULL) != ARROWSTREAM_MISUSE) stop("columns at NULL", 0);
    if (arrowstream_writer_buffers(NULL, 0, NULL, 0, NULL, 0, NULL, 0) != ARROWSTREAM_MISUSE
        || arrowstream_writer_dictionary(NULL, 0, 0, NULL, 0, NULL, 0, NULL, 0)
            != ARROWSTREAM_MISUSE)
        stop("buffers at NULL", 0);
    if (arrowstream_writer_ready(NULL) != 0 || arrowstream_writer_times_sent(NULL, 0) != 0
        || arrowstream_writer_take(NULL, bytes, sizeof bytes) != 0)
        stop("bytes of NULL", 0);
    if (arrowstream_writer_line(NULL, bytes, sizeof bytes, &wanted) != ARROWSTREAM_MISUSE
        || wanted != 0)
        stop("a line of NULL", 0);
    if (bytes[0] != FILL || bytes[1] != FILL) stop("a byte written at NULL", 0);
    arrowstream_writer_free(NULL);
}

static void copy_schema(arrowstream_reader *reader, arrowstream_writer *writer) {
    static uint8_t text[MOST];
    size_t wanted = 0;
    if (arrowstream_reader_schema(reader, text, sizeof text, &wanted) != ARROWSTREAM_OK)
        stop("no schema", 0);
    if (arrowstream_writer_schema(writer, text, wanted) != ARROWSTREAM_OK)
        stop("another schema", 0);
}

/* What a writer copies of a batch, in memory of exactly its size. The caller frees it. */
typedef struct {
    uint32_t status;
    arrowstream_canonical room;
    size_t count;
    uint8_t *bytes;
    int64_t *numbers;
} canonical;

static int is_untouched(const canonical *copy) {
    return (copy->room.bytes == 0 || copy->bytes[0] == FILL)
        && (copy->count == 0 || copy->numbers[0] == FILL);
}

/* Buffers follow one another at multiples of 8 bytes, with zeros between them. */
static void check_ranges(const canonical *copy) {
    size_t end = 0;
    for (size_t i = 0; i < copy->room.buffers; i++) {
        const int64_t *range = copy->numbers + 2 * (copy->room.nodes + i);
        if (range[0] != (int64_t)((end + 7) / 8 * 8) || range[1] < 0) stop("another range", i);
        for (; end < (size_t)range[0]; end++)
            if (copy->bytes[end] != 0) stop("a byte between buffers", i);
        end += (size_t)range[1];
    }
    if (copy->room.bytes != (end + 7) / 8 * 8) stop("another size of a body", end);
    for (; end < copy->room.bytes; end++)
        if (copy->bytes[end] != 0) stop("a byte after the last buffer", end);
}

/* Refuses each growth of the call in turn: nothing is copied, and the writer goes on. */
static void refuse_growths(arrowstream_writer *writer, const arrowstream_batch *batch,
                           const canonical *copy) {
    for (unsigned long growth = 1;; growth++) {
        arrowstream_canonical room = {.size = sizeof room};
        asked = 0;
        refused = growth;
        uint32_t status = arrowstream_writer_canonical(writer, batch, copy->bytes, copy->room.bytes,
                                                       copy->numbers, copy->count, &room);
        refused = 0;
        if (asked < growth) break;
        if (status != ARROWSTREAM_WRITE_OUT_OF_MEMORY || room.bytes != 0 || !is_untouched(copy))
            stop("a refused growth of a copy", growth);
    }
}

static canonical canonical_of(arrowstream_writer *writer, const arrowstream_batch *batch) {
    canonical copy = {.room = {.size = sizeof copy.room}};
    arrowstream_canonical room = {.size = sizeof room}, small = {.size = sizeof small - 1};
    if (arrowstream_writer_canonical(writer, batch, NULL, 0, NULL, 0, &small) != ARROWSTREAM_MISUSE)
        stop("a small struct", 0);
    if (arrowstream_writer_canonical(NULL, batch, NULL, 0, NULL, 0, &room) != ARROWSTREAM_MISUSE
        || arrowstream_writer_canonical(writer, NULL, NULL, 0, NULL, 0, &room) != ARROWSTREAM_MISUSE
        || room.bytes != 0)
        stop("a copy at NULL", 0);
    copy.status = arrowstream_writer_canonical(writer, batch, NULL, 0, NULL, 0, &copy.room);
    if (copy.status != ARROWSTREAM_OK) return copy;
    copy.count = 2 * (copy.room.nodes + copy.room.buffers);
    copy.bytes = __real_malloc(copy.room.bytes);
    copy.numbers = __real_malloc(copy.count * sizeof *copy.numbers);
    if (!copy.bytes || !copy.numbers) stop("no memory", 0);
    for (int part = 0; part < 3; part++) {
        memset(copy.bytes, FILL, copy.room.bytes);
        for (size_t i = 0; i < copy.count; i++) copy.numbers[i] = FILL;
        size_t length = copy.room.bytes - (part == 0 && copy.room.bytes > 0);
        size_t count = copy.count - (part == 1 && copy.count > 0);
        int is_short = length < copy.room.bytes || count < copy.count;
        if (part == 2) refuse_growths(writer, batch, &copy);
        if (arrowstream_writer_canonical(writer, batch, copy.bytes, length, copy.numbers, count,
                                         &room) != ARROWSTREAM_OK
            || memcmp(&room, &copy.room, sizeof room) != 0)
            stop("another copy", (size_t)part);
        if (is_short && !is_untouched(&copy)) stop("a copy without room", (size_t)part);
    }
    check_ranges(&copy);
    return copy;
}

/* Takes all bytes at once, and writes them. They end with the body that was copied. The caller
 * frees them. */
static uint8_t *take_body(arrowstream_writer *writer, const canonical *copy, size_t *ready) {
    size_t count = arrowstream_writer_ready(writer), body = copy->room.bytes;
    uint8_t *bytes = __real_malloc(count);
    if (!bytes || arrowstream_writer_take(writer, bytes, count) != count) stop("no bytes", count);
    if (count < body || memcmp(bytes + count - body, copy->bytes, body) != 0)
        stop("another body", count);
    if (fwrite(bytes, 1, count, stdout) != count) stop("no output", count);
    *ready = count;
    return bytes;
}

static int is_among(const uint8_t *body, size_t length, const uint8_t *bytes, size_t ready) {
    for (size_t at = 0; at + length <= ready; at += 8)
        if (memcmp(bytes + at, body, length) == 0) return 1;
    return 0;
}

/* How often the dictionary with an id was sent when it was looked at last. */
static uint64_t *times_of(int64_t id) {
    static struct { int64_t id; uint64_t times; } known[64];
    static size_t count;
    for (size_t i = 0; i < count; i++)
        if (known[i].id == id) return &known[i].times;
    if (count == sizeof known / sizeof *known) stop("too many dictionaries", count);
    known[count].id = id;
    return &known[count++].times;
}

/* Copies the values of a dictionary, or asks for their room. */
static uint32_t copy_values(arrowstream_writer *writer, int64_t id, const canonical *copy,
                            arrowstream_canonical *out) {
    if (!copy) return arrowstream_writer_canonical_values(writer, id, NULL, 0, NULL, 0, out);
    return arrowstream_writer_canonical_values(writer, id, copy->bytes, copy->room.bytes,
                                               copy->numbers, copy->count, out);
}

/* A writer, and a second one that is given what the first one copies. */
typedef struct {
    arrowstream_writer *first, *second;
} writers;

/* Gives the copy of a dictionary to the second writer. */
static void give_dictionary(const writers *to, int64_t id, const canonical *copy) {
    const int64_t *numbers = copy->numbers;
    size_t count = 2 * copy->room.buffers;
    if (arrowstream_writer_dictionary(to->second, id, numbers[0], numbers, 1, numbers + 2, count,
                                      copy->bytes, copy->room.bytes) != ARROWSTREAM_MISUSE)
        stop("an odd count", 0);
    if (arrowstream_writer_dictionary(to->second, id, numbers[0], numbers, 2, numbers + 2, count,
                                      copy->bytes, copy->room.bytes) != ARROWSTREAM_OK)
        stop("values that are refused", 0);
}

/* Gives the copy of a batch to the second writer, which sends the same body. */
static void give_buffers(const writers *to, size_t rows, const canonical *copy) {
    size_t nodes = 2 * copy->room.nodes, body = copy->room.bytes;
    if (arrowstream_writer_buffers(to->second, (int64_t)rows, copy->numbers, nodes,
                                   copy->numbers + nodes, copy->count - nodes, copy->bytes, body)
        != ARROWSTREAM_OK)
        stop("buffers that are refused", rows);
    size_t count = arrowstream_writer_ready(to->second);
    uint8_t *bytes = __real_malloc(count);
    if (!bytes || arrowstream_writer_take(to->second, bytes, count) != count)
        stop("no bytes", count);
    if (count < body || memcmp(bytes + count - body, copy->bytes, body) != 0)
        stop("another body of buffers", count);
    free(bytes);
}

/* The values of a dictionary that was sent lie as those of a batch do. Where it was sent again,
 * they are among the bytes that were sent. */
static void check_dictionary(const writers *of, int64_t id, const uint8_t *bytes, size_t ready) {
    arrowstream_writer *writer = of->first;
    arrowstream_canonical room = {.size = sizeof room}, again = room, small = room;
    uint64_t times = arrowstream_writer_times_sent(writer, id);
    small.size--;
    if (copy_values(writer, id, NULL, &small) != ARROWSTREAM_MISUSE
        || copy_values(NULL, id, NULL, &again) != ARROWSTREAM_MISUSE)
        stop("a dictionary at misuse", 0);
    if (copy_values(writer, id, NULL, &room) != ARROWSTREAM_OK) stop("no dictionary", 0);
    if (room.nodes != (times > 0)) stop("a dictionary that was not sent", 0);
    if (times == *times_of(id)) return;
    *times_of(id) = times;
    canonical copy = {.room = room, .count = 2 * (room.nodes + room.buffers)};
    copy.bytes = __real_malloc(room.bytes);
    copy.numbers = __real_malloc(copy.count * sizeof *copy.numbers);
    if (!copy.bytes || !copy.numbers) stop("no memory", 0);
    if (copy_values(writer, id, &copy, &again) != ARROWSTREAM_OK
        || memcmp(&again, &room, sizeof room) != 0)
        stop("another dictionary", 0);
    check_ranges(&copy);
    if (!is_among(copy.bytes, room.bytes, bytes, ready)) stop("values that were not sent", 0);
    give_dictionary(of, id, &copy);
    free(copy.bytes);
    free(copy.numbers);
}

static void check_dictionaries(const arrowstream_reader *reader, const writers *of, uint64_t *path,
                               size_t steps, const uint8_t *bytes, size_t ready) {
    arrowstream_field field = {.size = sizeof field};
    if (arrowstream_reader_field(reader, path, steps, &field) != ARROWSTREAM_OK)
        stop("no field", steps);
    if (field.index_bits != 0) check_dictionary(of, field.dictionary, bytes, ready);
    for (path[steps] = 0; path[steps] < field.children; path[steps]++)
        check_dictionaries(reader, of, path, steps + 1, bytes, ready);
}

static void copy_batch(arrowstream_reader *reader, const writers *to) {
    arrowstream_writer *writer = to->first;
    arrowstream_batch *batch = NULL;
    if (arrowstream_reader_take(reader, &batch) != ARROWSTREAM_OK) stop("no batch", 0);
    size_t rows = arrowstream_batch_rows(batch);
    if (arrowstream_writer_columns(writer, NULL) != ARROWSTREAM_MISUSE)
        stop("columns of NULL", rows);
    if (arrowstream_writer_columns(NULL, batch) != ARROWSTREAM_MISUSE)
        stop("columns at NULL", rows);
    take(writer, 1);
    canonical copy = canonical_of(writer, batch);
    if (arrowstream_writer_ready(writer) != 0) stop("bytes of a copy", rows);
    if (arrowstream_writer_columns(writer, batch) != copy.status) stop("another status", rows);
    if (arrowstream_batch_rows(batch) != rows) stop("another batch", rows);
    if (copy.status == ARROWSTREAM_OK) {
        uint64_t path[65];
        size_t ready = 0;
        uint8_t *bytes = take_body(writer, &copy, &ready);
        check_dictionaries(reader, to, path, 0, bytes, ready);
        give_buffers(to, rows, &copy);
        free(bytes);
    }
    free(copy.bytes);
    free(copy.numbers);
    arrowstream_batch_free(batch);
}

/* Writes the columns of the stream on standard input. */
static void copy_stream(void) {
    static uint8_t bytes[MOST];
    size_t length = fread(bytes, 1, sizeof bytes, stdin), from = 0;
    arrowstream_limits limits = {.size = sizeof limits};
    arrowstream_reader *reader = NULL;
    writers to = {NULL, NULL};
    arrowstream_progress now = {.size = sizeof now};
    arrowstream_limits_standard(&limits);
    arrowstream_reader_open(&limits, &reader);
    arrowstream_writer_open(&limits, &to.first);
    arrowstream_writer_open(&limits, &to.second);
    if (!reader || !to.first || !to.second) stop("no memory", 0);
    while (from < length && now.event != ARROWSTREAM_END) {
        if (arrowstream_reader_feed(reader, bytes + from, length - from, &now) != ARROWSTREAM_OK)
            stop("a refused stream", from);
        from += now.taken;
        if (now.event == ARROWSTREAM_SCHEMA) {
            copy_schema(reader, to.first);
            copy_schema(reader, to.second);
        }
        if (now.event == ARROWSTREAM_BATCH) copy_batch(reader, &to);
    }
    if (arrowstream_writer_finish(to.first) != ARROWSTREAM_OK) stop("no end", from);
    take(to.first, 1);
    arrowstream_reader_free(reader);
    arrowstream_writer_free(to.first);
    arrowstream_writer_free(to.second);
}

int main(int count, char **words) {
    if (count != 2) return 2;
    if (strcmp(words[1], "copy") == 0) {
        copy_stream();
        return 0;
    }
    call_at_null();
    int grows = strcmp(words[1], "growths") == 0;
    if (write_stream(!grows)) stop("out of memory without a refusal", 0);
    if (!grows) return 0;
    unsigned long all = asked;
    uint64_t whole = checksum;
    for (refused = 1; refused <= all; refused++) {
        asked = 0;
        checksum = 0;
        if (!write_stream(0) && checksum != whole)
            stop("a refused growth that no call reports, and another stream", 0);
    }
    printf("%lu growths\n", all);
    return 0;
}
