/* The destructors of the capsules in which Python hands on schemas, arrays and streams
 * (https://arrow.apache.org/docs/format/CDataInterface/PyCapsuleInterface.html).
 *
 * Python's own functions are those of the process that loads the library. A program without Python
 * has none, and calls nothing here. */
#include "arrowstream_cdata.h"

void *PyCapsule_GetPointer(void *capsule, const char *name) __attribute__((weak));
void PyMem_RawFree(void *room) __attribute__((weak));
int Py_IsInitialized(void) __attribute__((weak));

void arrowstream_capsule_free_schema(void *capsule);
void arrowstream_capsule_free_array(void *capsule);
void arrowstream_capsule_free_stream(void *capsule);

void arrowstream_capsule_free_schema(void *capsule) {
    struct ArrowSchema *schema = PyCapsule_GetPointer(capsule, "arrow_schema");
    if (schema->release) schema->release(schema);
    PyMem_RawFree(schema);
}

void arrowstream_capsule_free_array(void *capsule) {
    struct ArrowArray *array = PyCapsule_GetPointer(capsule, "arrow_array");
    if (array->release) array->release(array);
    PyMem_RawFree(array);
}

/* The functions of a stream are Python's, which cannot run once Python ends. */
void arrowstream_capsule_free_stream(void *capsule) {
    struct ArrowArrayStream *stream = PyCapsule_GetPointer(capsule, "arrow_array_stream");
    if (stream->release && Py_IsInitialized()) stream->release(stream);
    PyMem_RawFree(stream);
}
