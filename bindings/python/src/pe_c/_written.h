/* The methods that write a file, or an image as loaded. _core.c, whose macros they take, includes them. */

/* A file that a call writes, after one without room that says how long it is; or none after an error. */
#define WRITTEN(call, ...) \
    PyObject *file = NULL; \
    uint64_t size = 0; \
    UNLOCKED(rows.result, call(__VA_ARGS__, NULL, 0, &size)); \
    if (rows.result == PE_C_ROOM || rows.result == PE_C_DONE) \
        file = PyBytes_FromStringAndSize(NULL, (Py_ssize_t)size); \
    if (file) { \
        uint8_t *room = (uint8_t *)PyBytes_AsString(file); \
        UNLOCKED(rows.result, call(__VA_ARGS__, room, (size_t)size, &size)); \
    } \
    if (rows.result != PE_C_DONE) \
        Py_CLEAR(file); \
    return answer(file, &rows);

static PyObject *attach(Image *self, PyObject *arguments)
{
    const char *certificate;
    Py_ssize_t length;
    unsigned int placement;
    if (!PyArg_ParseTuple(arguments, "y#I", &certificate, &length, &placement))
        return NULL;
    OPEN
    const uint8_t *bytes = (const uint8_t *)certificate;
    WRITTEN(pe_c_attach, VIEW, bytes, (size_t)length, placement)
}

METHOD(detach)
{
    OPEN
    WRITTEN(pe_c_detach, VIEW)
}

/* edited(records, data): the image with these resources. The records are pe.h's, in bytes. */
static PyObject *edited(Image *self, PyObject *arguments)
{
    PyObject *records, *data;
    if (!PyArg_ParseTuple(arguments, "SS", &records, &data))
        return NULL;
    OPEN
#define RECORDS(of, type) (const type *)PyBytes_AsString(of), (size_t)PyBytes_Size(of) / sizeof(type)
    const pe_c_resource *all = (const pe_c_resource *)PyBytes_AsString(records);
    const uint8_t *bytes = (const uint8_t *)PyBytes_AsString(data);
    size_t count = (size_t)PyBytes_Size(records) / sizeof *all, length = (size_t)PyBytes_Size(data);
    WRITTEN(pe_c_edit, VIEW, all, count, bytes, length)
}

static uint32_t map_by(const pe_c_view *view, uint64_t difference, uint8_t *room, size_t length, uint64_t *size)
{
    uint32_t result = pe_c_map(view, room, length, size);
    return result == PE_C_DONE && difference ? pe_c_relocate(view, difference, room, length) : result;
}

/* mapped(difference): the image as a loader lays it out, relocated by the difference, modulo 2^64; none where that is not 0 and the
 * image has no base relocations. */
static PyObject *mapped(Image *self, PyObject *argument)
{
    uint64_t difference = PyLong_AsUnsignedLongLongMask(argument);
    if (PyErr_Occurred())
        return NULL;
    OPEN
    WRITTEN(map_by, VIEW, difference)
}
