/* Copies an Arrow IPC stream from standard input to standard output by the Arrow C data interface.
 * Any library of that interface can stand in place of either half.
 *
 * A refused stream has one line on standard error and the status 1. The status is 3 if standard
 * output failed. */
#include "arrowstream_cdata.h"

#include <errno.h>
#include <stdio.h>

enum { DONE = 0, REFUSED = 1, OUTPUT_FAILED = 3 };

static int read_input(void *source, uint8_t *bytes, size_t length, size_t *count) {
    *count = fread(bytes, 1, length, source);
    return *count == 0 && ferror((FILE *)source) ? EIO : 0;
}

static int write_ready(arrowstream_writer *writer) {
    uint8_t piece[65536];
    size_t count;
    while ((count = arrowstream_writer_take(writer, piece, sizeof piece)) > 0)
        if (fwrite(piece, 1, count, stdout) != count) return OUTPUT_FAILED;
    return DONE;
}

/* Sends each array of a stream as a batch, and writes it. */
static int copy_arrays(struct ArrowArrayStream *stream, const struct ArrowSchema *schema,
                       arrowstream_writer *writer, arrowstream_message *message) {
    for (;;) {
        struct ArrowArray array = {.release = NULL};
        if (stream->get_next(stream, &array) != 0) {
            snprintf(message->text, sizeof message->text, "%s", stream->get_last_error(stream));
            return REFUSED;
        }
        if (!array.release) return DONE;
        int error = arrowstream_import_batch(writer, schema, &array, message);
        array.release(&array);
        if (error) return REFUSED;
        if (write_ready(writer) != DONE) return OUTPUT_FAILED;
    }
}

static int copy_stream(struct ArrowArrayStream *stream, arrowstream_writer *writer,
                       arrowstream_message *message) {
    struct ArrowSchema schema = {.release = NULL};
    if (stream->get_schema(stream, &schema) != 0) {
        snprintf(message->text, sizeof message->text, "%s", stream->get_last_error(stream));
        return REFUSED;
    }
    int status = arrowstream_import_schema(writer, &schema, message) == 0
        ? copy_arrays(stream, &schema, writer, message)
        : REFUSED;
    schema.release(&schema);
    if (status != DONE) return status;
    if (arrowstream_writer_finish(writer) != ARROWSTREAM_OK) return REFUSED;
    return write_ready(writer) == DONE && fflush(stdout) == 0 ? DONE : OUTPUT_FAILED;
}

int main(void) {
    arrowstream_limits limits = {.size = sizeof limits};
    arrowstream_writer *writer = NULL;
    arrowstream_message message = {"out of memory"};
    struct ArrowArrayStream stream;
    int status = REFUSED;
    arrowstream_limits_standard(&limits);
    arrowstream_writer_open(&limits, &writer);
    if (arrowstream_export_stream(&limits, read_input, NULL, stdin, &stream, &message) == 0) {
        if (writer) status = copy_stream(&stream, writer, &message);
        stream.release(&stream);
    }
    arrowstream_writer_free(writer);
    if (status == REFUSED) fprintf(stderr, "%s\n", message.text);
    return status;
}
