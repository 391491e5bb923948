/* Writes an Arrow IPC stream of a small table to standard output.
 *
 *     write [BATCHES]    writes BATCHES batches: 2 if it is not given
 *
 * A refused call has one line on standard error and the status 1. The status is 3 if standard
 * output failed, and 4 if memory ran out. */
#include "arrowstream.h"

#include <stdio.h>
#include <stdlib.h>
#include <string.h>

enum { DONE = 0, REFUSED = 1, USAGE = 2, OUTPUT_FAILED = 3, NO_MEMORY = 4, ROWS = 3 };

/* A field for each column, and those of its members after it. */
static const char schema[] =
    "{\"fields\":["
    "{\"name\":\"id\",\"type\":[\"int\",64],\"nullable\":false,\"children\":0,"
    "\"dictionary\":null,\"metadata\":[]},"
    "{\"name\":\"size\",\"type\":[\"uint\",16],\"nullable\":true,\"children\":0,"
    "\"dictionary\":null,\"metadata\":[]},"
    "{\"name\":\"open\",\"type\":[\"bool\"],\"nullable\":false,\"children\":0,"
    "\"dictionary\":null,\"metadata\":[]},"
    "{\"name\":\"town\",\"type\":[\"utf8\"],\"nullable\":true,\"children\":0,"
    "\"dictionary\":[1,[\"int\",8],false],\"metadata\":[]},"
    "{\"name\":\"key\",\"type\":[\"binary\"],\"nullable\":false,\"children\":0,"
    "\"dictionary\":null,\"metadata\":[]},"
    "{\"name\":\"tags\",\"type\":[\"list\"],\"nullable\":false,\"children\":1,"
    "\"dictionary\":null,\"metadata\":[]},"
    "{\"name\":\"item\",\"type\":[\"utf8\"],\"nullable\":false,\"children\":0,"
    "\"dictionary\":null,\"metadata\":[]},"
    "{\"name\":\"place\",\"type\":[\"struct\"],\"nullable\":true,\"children\":2,"
    "\"dictionary\":null,\"metadata\":[]},"
    "{\"name\":\"x\",\"type\":[\"int\",32],\"nullable\":false,\"children\":0,"
    "\"dictionary\":null,\"metadata\":[]},"
    "{\"name\":\"y\",\"type\":[\"int\",32],\"nullable\":false,\"children\":0,"
    "\"dictionary\":null,\"metadata\":[]}"
    "],\"metadata\":[]}";

static uint32_t add_text(arrowstream_writer *writer, const char *text) {
    return arrowstream_writer_text(writer, (const uint8_t *)text, strlen(text));
}

/* Adds a list of `count` texts. */
static uint32_t add_tags(arrowstream_writer *writer, int64_t count) {
    uint32_t status = arrowstream_writer_begin_list(writer);
    for (int64_t i = 0; i < count && status == ARROWSTREAM_OK; i++)
        status = add_text(writer, "tag");
    return status == ARROWSTREAM_OK ? arrowstream_writer_end(writer) : status;
}

/* Adds a struct of two integers, or null. */
static uint32_t add_place(arrowstream_writer *writer, int64_t id) {
    if (id % 3 == 2) return arrowstream_writer_null(writer);
    uint32_t status = arrowstream_writer_begin_struct(writer);
    if (status == ARROWSTREAM_OK) status = arrowstream_writer_int(writer, id);
    if (status == ARROWSTREAM_OK) status = arrowstream_writer_int(writer, -id);
    return status == ARROWSTREAM_OK ? arrowstream_writer_end(writer) : status;
}

static uint32_t add_row(arrowstream_writer *writer, int64_t id) {
    static const char *const towns[] = {"Bonn", "Køln"};
    const uint8_t key[] = {(uint8_t)id, 0};
    uint32_t status = arrowstream_writer_int(writer, id);
    if (status == ARROWSTREAM_OK)
        status = id % 2 ? arrowstream_writer_null(writer) : arrowstream_writer_uint(writer, 65535);
    if (status == ARROWSTREAM_OK) status = arrowstream_writer_bool(writer, id % 2 == 0);
    if (status == ARROWSTREAM_OK) status = add_text(writer, towns[id % 2]);
    if (status == ARROWSTREAM_OK) status = arrowstream_writer_bytes(writer, key, sizeof key);
    if (status == ARROWSTREAM_OK) status = add_tags(writer, id % 3);
    if (status == ARROWSTREAM_OK) status = add_place(writer, id);
    return status == ARROWSTREAM_OK ? arrowstream_writer_row(writer) : status;
}

static uint32_t add_batch(arrowstream_writer *writer, int64_t first) {
    uint32_t status = ARROWSTREAM_OK;
    for (int64_t row = first; row < first + ROWS && status == ARROWSTREAM_OK; row++)
        status = add_row(writer, row);
    return status == ARROWSTREAM_OK ? arrowstream_writer_send(writer) : status;
}

/* Prints the line of the last refusal. */
static int refuse(arrowstream_writer *writer, uint32_t status) {
    uint8_t line[256];
    size_t wanted = 0;
    if (status == ARROWSTREAM_WRITE + 9 || status == ARROWSTREAM_WRITE_OUT_OF_MEMORY)
        return NO_MEMORY;
    if (arrowstream_writer_line(writer, line, sizeof line, &wanted) != ARROWSTREAM_OK)
        return NO_MEMORY;
    fprintf(stderr, "%.*s\n", (int)(wanted < sizeof line ? wanted : 0), (const char *)line);
    return REFUSED;
}

/* Writes the bytes that are ready to standard output, after a call with this status. */
static int put_bytes(arrowstream_writer *writer, uint32_t status) {
    uint8_t bytes[4096];
    if (status != ARROWSTREAM_OK) return refuse(writer, status);
    while (arrowstream_writer_ready(writer) > 0) {
        size_t count = arrowstream_writer_take(writer, bytes, sizeof bytes);
        if (fwrite(bytes, 1, count, stdout) != count) return OUTPUT_FAILED;
    }
    return fflush(stdout) == 0 ? DONE : OUTPUT_FAILED;
}

static int write_table(arrowstream_writer *writer, int64_t batches) {
    const uint8_t *text = (const uint8_t *)schema;
    int result = put_bytes(writer, arrowstream_writer_schema(writer, text, strlen(schema)));
    for (int64_t batch = 0; batch < batches && result == DONE; batch++)
        result = put_bytes(writer, add_batch(writer, batch * ROWS));
    return result == DONE ? put_bytes(writer, arrowstream_writer_finish(writer)) : result;
}

int main(int count, char **words) {
    int64_t batches = count > 1 ? strtoll(words[1], NULL, 10) : 2;
    if (batches < 0 || arrowstream_version() != ARROWSTREAM_VERSION) return USAGE;
    arrowstream_limits limits = {.size = sizeof limits};
    arrowstream_writer *writer = NULL;
    arrowstream_limits_standard(&limits);
    arrowstream_writer_open(&limits, &writer);
    if (!writer) return NO_MEMORY;
    int result = write_table(writer, batches);
    arrowstream_writer_free(writer);
    return result;
}
