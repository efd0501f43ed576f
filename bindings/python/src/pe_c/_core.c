/* pe_c._core: the calls of pe.h for Python, by the stable ABI of Python 3.11.
 *
 * An Image holds the buffer of its bytes, so that they stay where they are, and copies those that may be written. Each
 * method returns (value, number, is_limited): what there is before the first error, the number of that error or
 * PE_C_DONE, and whether the budget ended it. What records become is written by tools/make_python, in _rows.h.
 *
 * An Image is also a COFF object, a TE image, or bytes of which nothing is read, as those of a minidump. One that is exact, for the
 * JSON of _facts.py, has each inner list as such a triple, and of names that are no text each byte.
 *
 * A budget bounds what a hostile image costs: many of its lists and names may be one and the same bytes, and each RVA is
 * looked for in all of its sections. */
#define Py_LIMITED_API 0x030B0000
#define PY_SSIZE_T_CLEAN
#include <Python.h>
#include <string.h>
#include "pe.h"
#include "_row_kinds.h"

/* What the bytes of an Image are. */
enum { KIND_IMAGE, KIND_OBJECT, KIND_TE, KIND_BYTES };

/* What a row costs, in bytes of the budget; to how many sections one such byte is equal, where the row's RVAs are mapped; how
 * many rows lists have whose entries may be the same bytes: each, or all of an exact image; how many levels version blocks have
 * below the first, of which real ones have three; how many frames a stack has; from how many sections on there is an index of
 * them; how many names are read together; how many refused lists inside of rows count as the bytes of an exact image; how many
 * items the first call of a list takes, and how many each further one. */
enum { ROW_COST = 16, SECTIONS_A_BYTE = 2, MOST_ROWS = 1 << 17, MOST_DEPTH = 8, MOST_FRAMES = 1 << 14, MANY_SECTIONS = 32, NAMES = 16,
       REFUSED = 16, FEW = 16, MANY = 2048 };

typedef struct {
    PyTypeObject *image;
    PyTypeObject *rows[ROW_KINDS];
} State;

typedef struct {
    PyObject_HEAD
    State *state;                   /* of the module, which the type keeps */
    Py_buffer view;
    PyObject *memory;               /* a memoryview of what is read, read-only; NULL once closed */
    pe_c_image_info info;
    pe_c_section *sections;
    pe_c_range_entry *index;        /* of many sections; NULL of few */
    uint64_t entries, rows;         /* of the index; that are left of all lists of an exact image */
    pe_c_coff_header coff;          /* of an object, or of an image */
    pe_c_te_image te;
    pe_c_range strings;             /* the COFF string table, empty without one */
    int kind, is_exact;
    Py_ssize_t users;               /* how many calls read it: close() is refused meanwhile. Any of them may let others run,
                                       since a new object may start the collector, and that finalizers */
} Image;

#define BYTES self->view.buf, (size_t)self->view.len
#define SECTIONS self->sections, self->info.number_of_sections
#define VIEW &(pe_c_view){BYTES, &self->info, SECTIONS, self->index, self->entries}

typedef struct {
    uint64_t bytes, rows;           /* that are left */
    uint64_t each;                  /* what a row costs besides its texts */
    int is_over, depth;
} Budget;

/* A call that may take long, while other threads run: of an image that is in use, or that no one else has yet. */
#define UNLOCKED(result, ...) \
    do { \
        Py_BEGIN_ALLOW_THREADS \
        result = __VA_ARGS__; \
        Py_END_ALLOW_THREADS \
    } while (0)

/* A list as far as it was read. It is NULL once an exception is set. */
typedef struct {
    PyObject *list;
    Budget *budget;
    Image *image;
    Budget *names;                  /* what the long names of sections are paid by: a header is there without one too */
    uint32_t result;
    const pe_c_range *long_names;   /* of NAMES sections, the current one among them; empty where there is none */
} Rows;

/* Takes it off the budget, or says that the budget is over. */
static int pays(Budget *budget, uint64_t cost)
{
    budget->is_over = budget->is_over || budget->bytes < cost;
    if (!budget->is_over)
        budget->bytes -= cost;
    return !budget->is_over;
}

/* ---- values */

#define N(number) PyLong_FromUnsignedLongLong(number)
#define B(flag) PyBool_FromLong((long)(flag))
#define OPTIONAL(is_there, expression) ((is_there) ? (expression) : Py_NewRef(Py_None))
/* A range that the library returned lies inside the bytes. */
#define AT(range) (const char *)self->view.buf + (range).offset, (Py_ssize_t)(range).length

static PyObject *bytes_of(const uint8_t *bytes, size_t length)
{
    return PyBytes_FromStringAndSize((const char *)bytes, (Py_ssize_t)length);
}

static PyObject *numbers(const uint64_t *of, Py_ssize_t count)
{
    PyObject *tuple = PyTuple_New(count);
    for (Py_ssize_t i = 0; tuple && i < count; i++) {
        PyObject *number = N(of[i]);
        if (number)
            PyTuple_SetItem(tuple, i, number);
        else
            Py_CLEAR(tuple);
    }
    return tuple;
}

static PyObject *utf8(Image *self, pe_c_range range)
{
    return PyUnicode_DecodeUTF8(AT(range), self->is_exact ? "surrogateescape" : "backslashreplace");
}

static PyObject *raw(Image *self, pe_c_range range)
{
    return PyBytes_FromStringAndSize(AT(range));
}

static PyObject *utf8_to_zero(Image *self, pe_c_range range)
{
    const char *start = (const char *)self->view.buf + range.offset, *end = memchr(start, 0, range.length);
    range.length = end ? (uint64_t)(end - start) : range.length;
    return utf8(self, range);
}

/* Lone surrogates become escapes: as they are, neither print nor json could write them. */
static PyObject *utf16(Image *self, pe_c_range range)
{
    int little_endian = -1;
    range.length &= ~(uint64_t)1;
    return PyUnicode_DecodeUTF16(AT(range), self->is_exact ? "replace" : "backslashreplace", &little_endian);
}

static PyObject *utf16_to_zero(Image *self, pe_c_range range)
{
    const char *start = (const char *)self->view.buf + range.offset;
    uint64_t i = 0;
    while (i + 1 < range.length && (start[i] || start[i + 1]))
        i += 2;
    range.length = i;
    return utf16(self, range);
}

/* The part of the memory, as a memoryview: nothing is copied, and it keeps the memory alive. */
static PyObject *view_of(Image *self, pe_c_range range)
{
    return PySequence_GetSlice(self->memory, (Py_ssize_t)range.offset, (Py_ssize_t)(range.offset + range.length));
}

static PyObject *resource_name(Image *self, pe_c_resource_name name)
{
    return name.has_name ? utf16(self, name.name) : N(name.id);
}

/* That of the string table, or of the header, which an exact image has as it is. */
static PyObject *section_name(Image *self, Rows *rows, const pe_c_section *it)
{
    if (self->strings.length && it->name[0] == '/' && !rows->names->is_over) {
        pe_c_range name = rows->long_names[(it - self->sections) % NAMES];
        int is_found = name.offset != 0;
        /* The string that is none was read too, as far as the table goes. */
        if (pays(rows->names, is_found ? name.length : self->strings.length) && is_found)
            return utf8(self, name);
    }
    if (self->is_exact)
        return Py_NewRef(Py_None);
    const uint8_t *end = memchr(it->name, 0, sizeof it->name);
    Py_ssize_t length = end ? end - it->name : (Py_ssize_t)sizeof it->name;
    return PyUnicode_DecodeUTF8((const char *)it->name, length, "backslashreplace");
}

/* A string of a minidump, or None where its location is refused. */
static PyObject *dump_text(Image *self, Rows *rows, uint64_t rva)
{
    pe_c_range range = PE_C_EMPTY;
    if (!rva || pe_c_dump_text(BYTES, rva, &range) != PE_C_DONE || !pays(rows->budget, range.length))
        return Py_NewRef(Py_None);
    return utf16(self, range);
}

/* ---- lists */

static Budget budget_of(Image *self)
{
    uint64_t each = ROW_COST + self->info.number_of_sections / SECTIONS_A_BYTE;
    return (Budget){(uint64_t)self->view.len * 4 + 65536, self->is_exact ? self->rows : MOST_ROWS, each, 0, 0};
}

/* A budget for entries that are bytes of their own, so that there are no more of them than the file has room for, and whose
 * RVAs are not mapped. */
static Budget budget_of_own(Image *self)
{
    Budget budget = budget_of(self);
    budget.rows = UINT64_MAX;
    budget.each = ROW_COST;
    return budget;
}

/* Pays for a row, and for so many bytes of its texts. */
static int takes(Rows *rows, uint64_t texts)
{
    Budget *budget = rows->budget;
    budget->is_over = budget->is_over || budget->rows == 0;
    budget->rows -= budget->rows > 0;
    return pays(budget, budget->each + texts);
}

/* What was read to find that no text is at the RVA: the bytes up to the first zero. */
static uint64_t unread(Image *self, uint32_t rva)
{
    uint64_t offset = 0, length = (uint64_t)self->view.len;
    if (pe_c_offset(VIEW, rva, &offset) != PE_C_DONE || offset >= length)
        return 0;
    const char *start = (const char *)self->view.buf + offset, *end = memchr(start, 0, length - offset);
    return end ? (uint64_t)(end - start) : length - offset;
}

static Rows rows_of(Image *self, Budget *budget)
{
    return (Rows){PyList_New(0), budget, self, budget, PE_C_DONE, NULL};
}

/* The result of the call that starts a list. An exact image has None for one that is absent or refused, and () for an empty one. */
static void starts(Rows *rows, uint32_t result)
{
    rows->result = result;
    if (rows->image->is_exact && result != PE_C_DONE)
        Py_CLEAR(rows->list);
}

static int goes_on(const Rows *rows)
{
    return rows->list && rows->result == PE_C_DONE && !rows->budget->is_over;
}

/* Adds a row, which is NULL after an exception, and where the budget is over. */
static void append(Rows *rows, PyObject *row)
{
    if (row ? PyList_Append(rows->list, row) < 0 : PyErr_Occurred() != NULL)
        Py_CLEAR(rows->list);
    Py_XDECREF(row);
}

/* Goes on with a walk: `call` is its next step. */
#define EACH(rows, call, row) \
    while (goes_on(rows) && ((rows)->result = (call)) == PE_C_DONE) \
        append(rows, row)

/* ---- many items a call */

/* A list call of pe.h, by which a walk goes on. Calls that read names together take runs for these. */
typedef uint32_t Listed(Image *self, void *walk, pe_c_run *runs, size_t run_count, void *items, size_t most, uint64_t *count);
#define LISTED(name, call) \
    static uint32_t name(Image *self, void *walk, pe_c_run *runs, size_t run_count, void *items, size_t most, uint64_t *count) \
    { \
        (void)runs, (void)run_count; \
        return call; \
    }

/* What a call wrote. The first call takes few, since most lists are short; the others many, without the GIL, and read a text
 * that names share once a call. */
typedef struct {
    void *items;
    pe_c_run *runs;
    size_t most;
    uint64_t count;
} Chunk;

static void ends(Chunk *chunk)
{
    PyMem_Free(chunk->items);
    PyMem_Free(chunk->runs);
    *chunk = (Chunk){NULL, NULL, 0, 0};
}

/* Makes room for the items of the next call. An export has two texts. */
static int makes_room(Rows *rows, Chunk *chunk, size_t size)
{
    size_t most = chunk->most ? MANY : FEW;
    if (chunk->most == MANY)
        return 1;
    ends(chunk);
    chunk->items = PyMem_Calloc(most, size);
    chunk->runs = most == MANY ? PyMem_Malloc(2 * most * sizeof *chunk->runs) : NULL;
    chunk->most = most;
    if (chunk->items && (chunk->runs || most == FEW))
        return 1;
    ends(chunk);
    Py_CLEAR(rows->list);
    PyErr_NoMemory();
    return 0;
}

/* Makes such a call, for so many items at most. */
static void takes_items(Rows *rows, Chunk *chunk, Listed listed, void *walk, size_t most)
{
    Image *self = rows->image;
    chunk->count = 0;
    if (!chunk->runs) {
        rows->result = listed(self, walk, NULL, 0, chunk->items, most, &chunk->count);
        return;
    }
    UNLOCKED(rows->result, listed(self, walk, chunk->runs, 2 * most, chunk->items, most, &chunk->count));
}

/* Whether the list goes on by further items. A call that left room has reached the end, or what is refused: the next one says which,
 * and needs no more room. */
static int next_items(Rows *rows, Chunk *chunk, size_t size, Listed listed, void *walk)
{
    if (goes_on(rows) && (chunk->count < chunk->most || makes_room(rows, chunk, size))) {
        takes_items(rows, chunk, listed, walk, chunk->most);
        if (rows->result == PE_C_DONE && chunk->count)
            return 1;
    }
    ends(chunk);
    return 0;
}

/* Goes on with a walk by such calls. */
#define EACH_OF(rows, Item, listed, walk, row) \
    do { \
        Chunk chunk = {NULL, NULL, 0, 0}; \
        while (next_items(rows, &chunk, sizeof(Item), listed, walk)) \
            for (uint64_t i = 0; i < chunk.count && goes_on(rows); i++) { \
                Item item = ((const Item *)chunk.items)[i]; \
                append(rows, row); \
            } \
    } while (0)

static PyObject *tuple_of(Rows *rows)
{
    PyObject *tuple = rows->list ? PyList_AsTuple(rows->list) : NULL;
    Py_CLEAR(rows->list);
    return tuple;
}

static PyObject *triple(PyObject *value, const Rows *rows)
{
    if (!value && !PyErr_Occurred())
        value = Py_NewRef(Py_None);
    PyObject *number = value ? N(rows->result == PE_C_NOTHING ? PE_C_DONE : rows->result) : NULL;
    PyObject *found = number ? PyTuple_Pack(3, value, number, rows->budget->is_over ? Py_True : Py_False) : NULL;
    Py_XDECREF(value);
    Py_XDECREF(number);
    return found;
}

/* The rows as a tuple. An error of an inner list is that of the list around it, which ends there, but in an exact image. There what
 * was read to refuse it is paid for as a part of the image: the list, or a name in it, may be nearly as long, and that of each row. */
static PyObject *inside(Rows *outer, Rows *rows)
{
    int is_refused = rows->result != PE_C_DONE && rows->result != PE_C_NOTHING;
    if (rows->image->is_exact) {
        PyObject *found = triple(tuple_of(rows), rows);
        if (is_refused)
            pays(outer->budget, (uint64_t)rows->image->view.len / REFUSED);
        return found;
    }
    if (is_refused)
        outer->result = rows->result;
    return tuple_of(rows);
}

static PyObject *answer(PyObject *value, const Rows *rows)
{
    Image *self = rows->image;
    self->users--;
    self->rows = rows->budget->rows < self->rows ? rows->budget->rows : self->rows;
    return triple(value, rows);
}

static PyObject *finished(Rows *rows)
{
    return answer(tuple_of(rows), rows);
}

static PyObject *filled(Image *self, int kind, PyObject **items, Py_ssize_t count)
{
    PyObject *row = PyStructSequence_New(self->state->rows[kind]);
    int is_well = row != NULL;
    for (Py_ssize_t i = 0; i < count; i++) {
        is_well = is_well && items[i];
        if (row)
            PyStructSequence_SetItem(row, i, items[i]);
        else
            Py_XDECREF(items[i]);
    }
    if (!is_well)
        Py_CLEAR(row);
    return row;
}

/* ---- lists inside of rows; each is a walk that its record has the start of */

#define INNER(name, Record, Walk, start, Item, call, row) \
    static PyObject *name(Image *self, Rows *outer, const Record *it) \
    { \
        Walk walk = start; \
        Item item = PE_C_EMPTY; \
        Rows rows = rows_of(self, outer->budget); \
        EACH(&rows, call, row); \
        return inside(outer, &rows); \
    }
/* The same by a list call. */
#define INNER_OF(name, Record, Walk, start, Item, call, row) \
    LISTED(name##_listed, call) \
    static PyObject *name(Image *self, Rows *outer, const Record *it) \
    { \
        Walk walk = start; \
        Rows rows = rows_of(self, outer->budget); \
        EACH_OF(&rows, Item, name##_listed, &walk, row); \
        return inside(outer, &rows); \
    }
#define ROW_OF(name) row_##name(self, &rows, &item)

static PyObject *directories_of(Image *self, Rows *rows, const pe_c_directory *it, uint32_t count);

/* Whether the RVA of a library's list is unmapped. A list at the offset 0 is not empty: the DOS header starts there. */
static int has_unmapped_list(const pe_c_library *it)
{
    return it->imports.left.offset == 0 && it->imports.left.length == 0;
}

#include "_rows.h"

/* Starts a walk over the address table of a library, which goes on to the end of the file. */
static uint32_t starts_table(Image *self, const pe_c_library *it, pe_c_imports *walk)
{
    uint64_t offset = 0, length = (uint64_t)self->view.len;
    if (pe_c_offset(VIEW, it->address_table_rva, &offset) != PE_C_DONE)
        return PE_C_UNMAPPED;
    *walk = (pe_c_imports){{offset, offset < length ? length - offset : 0}, it->address_table_rva};
    return PE_C_DONE;
}

/* The next import of such a table, which a zero entry ends. */
static uint32_t next_of_table(Image *self, pe_c_import_walk *walk, pe_c_import *item)
{
    uint64_t entry = 0, size = self->info.width == 64 ? 8 : 4;
    pe_c_range left = walk->imports.left;
    if (left.length < size)
        return PE_C_SHORT;
    memcpy(&entry, (const char *)self->view.buf + left.offset, size);
    return entry ? pe_c_next_import(VIEW, walk, item) : PE_C_NOTHING;
}

LISTED(list_imports, pe_c_list_imports(VIEW, walk, runs, run_count, items, most, count))

/* The imports of a library: those that its address table names where its lookup table is unmapped. */
static PyObject *imports_of(Image *self, Rows *outer, const pe_c_library *it)
{
    pe_c_import_walk walk = {.imports = it->imports};
    pe_c_import item = PE_C_EMPTY;
    Rows rows = rows_of(self, outer->budget);
    if (!has_unmapped_list(it)) {
        EACH_OF(&rows, pe_c_import, list_imports, &walk, ROW_OF(import));
        return inside(outer, &rows);
    }
    rows.result = starts_table(self, it, &walk.imports);
    EACH(&rows, next_of_table(self, &walk, &item), ROW_OF(import));
    return inside(outer, &rows);
}

static PyObject *directories_of(Image *self, Rows *outer, const pe_c_directory *it, uint32_t count)
{
    Rows rows = rows_of(self, outer->budget);
    for (uint32_t i = 0; i < count && i < 16 && goes_on(&rows); i++)
        append(&rows, row_directory(self, &rows, &it[i]));
    return tuple_of(&rows);
}

/* All codes of a record, which one call lists: before an error those before it. */
static PyObject *unwind_codes(Image *self, Rows *outer, const pe_c_record *it)
{
    enum { MOST_CODES = 255 };
    pe_c_code codes[MOST_CODES];
    pe_c_code_form form = {it->codes.version, it->codes.frame_register};
    const uint8_t *start = (const uint8_t *)self->view.buf + it->codes.left.offset;
    uint64_t count = 0;
    Rows rows = rows_of(self, outer->budget);
    uint32_t result = pe_c_all_codes(start, (size_t)it->codes.left.length, &form, codes, MOST_CODES, &count);
    for (uint64_t i = 0; i < count && goes_on(&rows); i++)
        append(&rows, row_code(self, &rows, &codes[i]));
    if (goes_on(&rows))
        rows.result = result;
    return inside(outer, &rows);
}

/* All codes of a record: those of its prolog, and those of its epilogs after them. */
static PyObject *arm64_codes(Image *self, Rows *outer, const pe_c_arm64_record *it)
{
    pe_c_arm64_walk walk = PE_C_EMPTY;
    pe_c_arm64_code item = PE_C_EMPTY;
    Rows rows = rows_of(self, outer->budget);
    rows.result = pe_c_arm64_codes(BYTES, &it->codes, 0, &walk);
    EACH(&rows, pe_c_next_arm64_code(BYTES, &walk, &item), ROW_OF(arm64_code));
    return inside(outer, &rows);
}

static PyObject *bound_forwarders(Image *self, Rows *outer, const pe_c_bound_import *it)
{
    pe_c_range table = PE_C_EMPTY, walk = it->forwarders;
    pe_c_bound_forwarder item = PE_C_EMPTY;
    Rows rows = rows_of(self, outer->budget);
    rows.result = pe_c_bound_imports(VIEW, &table);
    EACH(&rows, pe_c_next_bound_forwarder(BYTES, &table, &walk, &item), ROW_OF(bound_forwarder));
    return inside(outer, &rows);
}

/* A walk over version blocks goes on after an error of one of them; the first is that of the list. */
static void add_version_blocks(Image *self, Rows *rows, pe_c_range walk)
{
    pe_c_version_block item = PE_C_EMPTY;
    uint32_t first_error = PE_C_DONE;
    while (rows->list && !rows->budget->is_over) {
        uint32_t result = pe_c_next_version_block(BYTES, &walk, &item);
        rows->result = PE_C_DONE;
        if (result == PE_C_DONE)
            append(rows, row_version_block(self, rows, &item));
        if (result == PE_C_NOTHING)
            break;
        result = result == PE_C_DONE ? rows->result : result;
        first_error = first_error == PE_C_DONE ? result : first_error;
        if (self->is_exact && first_error != PE_C_DONE)
            break;
    }
    rows->result = first_error;
}

static PyObject *version_children(Image *self, Rows *outer, const pe_c_version_block *it)
{
    Rows rows = rows_of(self, outer->budget);
    if (outer->budget->depth >= MOST_DEPTH)
        outer->budget->is_over = 1;
    outer->budget->depth++;
    add_version_blocks(self, &rows, it->children);
    outer->budget->depth--;
    return inside(outer, &rows);
}

static PyObject *tls_callbacks(Image *self, Rows *outer, const pe_c_tls_directory *it)
{
    pe_c_range walk = PE_C_EMPTY;
    uint64_t item = 0;
    Rows rows = rows_of(self, outer->budget);
    starts(&rows, pe_c_tls_callbacks(VIEW, it, &walk));
    EACH(&rows, pe_c_next_tls_callback(VIEW, &walk, &item), takes(&rows, 0) ? N(item) : NULL);
    return inside(outer, &rows);
}

/* ---- methods */

static int is_open(Image *self)
{
    if (!self->memory)
        PyErr_SetString(PyExc_ValueError, "operation on a closed image");
    return self->memory != NULL;
}

#define METHOD(name) static PyObject *name(Image *self, PyObject *Py_UNUSED(none))
/* The image is in use from here on, until `answer` returns what was read. So arguments are read before it. */
#define OPEN_BY(budget_made) \
    if (!is_open(self)) \
        return NULL; \
    Budget budget = budget_made(self); \
    Rows rows = {NULL, &budget, self, &budget, PE_C_DONE, NULL}; \
    self->users++;
#define OPEN OPEN_BY(budget_of)
#define OPEN_OWN OPEN_BY(budget_of_own)

/* A record of its own. */
#define ONE(name, Item, call, row) \
    METHOD(name) \
    { \
        OPEN \
        Item item = PE_C_EMPTY; \
        rows.result = call; \
        return answer(rows.result == PE_C_DONE ? row : NULL, &rows); \
    }

/* The record of the first debug entry of a type. */
#define FIRST(name, Item, field, row) \
    static uint32_t first_##name(Image *self, Item *out) \
    { \
        pe_c_debug_records found = PE_C_EMPTY; \
        pe_c_debug_data(VIEW, &found); \
        *out = found.field; \
        return found.field##_result; \
    } \
    ONE(name, Item, first_##name(self, &item), row)

/* A list: `start` starts its walk, and `call` goes on. */
#define LIST_BY(opened, name, Walk, start, Item, call, row) \
    METHOD(name) \
    { \
        opened \
        Walk walk = PE_C_EMPTY; \
        Item item = PE_C_EMPTY; \
        rows = rows_of(self, &budget); \
        starts(&rows, start); \
        EACH(&rows, call, row); \
        return finished(&rows); \
    }
#define LIST(...) LIST_BY(OPEN, __VA_ARGS__)
/* The same by a list call. */
#define LIST_OF(name, Walk, start, Item, call, row) \
    LISTED(name##_listed, call) \
    METHOD(name) \
    { \
        OPEN \
        Walk walk = PE_C_EMPTY; \
        rows = rows_of(self, &budget); \
        starts(&rows, start); \
        EACH_OF(&rows, Item, name##_listed, &walk, row); \
        return finished(&rows); \
    }

/* What was read with the headers. */
#define OWN(name, row) METHOD(name) { OPEN_OWN return answer(row, &rows); }
OWN(headers, row_image_info(self, &rows, &self->info))
OWN(coff_header, row_coff_header(self, &rows, &self->coff))
OWN(te_header, row_te_image(self, &rows, &self->te))
OWN(coff_strings, self->strings.length ? view_of(self, self->strings) : NULL)

/* The walk over certificates starts as the range of their directory, which is one of the file. */
static uint32_t certificate_table(Image *self, pe_c_range *out)
{
    pe_c_directory table = self->info.directories[PE_C_DIRECTORY_SECURITY];
    *out = (pe_c_range){table.virtual_address, table.size};
    return (table.virtual_address || table.size) && !(self->info.mode & PE_C_MAPPED) ? PE_C_DONE : PE_C_NOTHING;
}

LIST(certificates, pe_c_range, certificate_table(self, &walk), pe_c_certificate,
     pe_c_next_certificate(BYTES, &walk, &item), ROW_OF(certificate))

/* ---- COFF objects and TE images */

static uint32_t first_te_key(Image *self, pe_c_key *out)
{
    pe_c_range walk = PE_C_EMPTY;
    pe_c_debug_entry entry = PE_C_EMPTY;
    pe_c_debug_records found = PE_C_EMPTY;
    uint32_t result = pe_c_te_debug_entries(BYTES, &self->te, &walk);
    if (result != PE_C_DONE)
        return result;
    while (pe_c_next_te_debug_entry(BYTES, &self->te, &walk, &entry) == PE_C_DONE && entry.data_type != 2)
        continue;
    pe_c_debug_record(BYTES, PE_C_MAPPED, &entry, &found);
    *out = found.key;
    return found.key_result;
}

ONE(te_symbol_key, pe_c_key, first_te_key(self, &item), ROW_OF(key))
LISTED(list_symbols, pe_c_list_symbols(BYTES, walk, runs, run_count, items, most, count))

/* The COFF symbols, whose names are read together. A name that is refused ends the list before its symbol. In facts a string table that
 * is refused refuses all of them, as in `pe`. */
METHOD(symbols)
{
    OPEN_OWN
    pe_c_named_symbol_walk walk = PE_C_EMPTY;
    Chunk chunk = {NULL, NULL, 0, 0};
    walk.strings = self->strings;
    rows = rows_of(self, &budget);
    /* They are no part of an image as loaded, which has something else at their file offset. */
    uint32_t result = self->info.mode & PE_C_MAPPED ? PE_C_NOTHING : pe_c_coff_symbols(BYTES, &self->coff, &walk.symbols);
    uint32_t strings = PE_C_NOTHING;
    if (result == PE_C_DONE && self->is_exact)
        strings = pe_c_coff_strings(BYTES, &self->coff, &walk.strings);
    starts(&rows, strings == PE_C_NOTHING ? result : strings);
    while (next_items(&rows, &chunk, sizeof(pe_c_named_symbol), list_symbols, &walk))
        for (uint64_t i = 0; i < chunk.count && goes_on(&rows); i++) {
            const pe_c_named_symbol *it = (const pe_c_named_symbol *)chunk.items + i;
            if ((rows.result = it->name_result) == PE_C_DONE)
                append(&rows, takes(&rows, it->name.length) ? row_symbol_entry(self, &rows, &it->symbol, it->name) : NULL);
        }
    return finished(&rows);
}

/* The long names of so many sections from an index on, which are read together. */
static void read_long_names(Image *self, uint64_t next, pe_c_range *out)
{
    pe_c_run runs[NAMES];
    uint64_t count = 0;
    memset(out, 0, NAMES * sizeof *out);
    if (self->strings.length && pe_c_list_long_section_names(VIEW, &self->strings, &next, runs, NAMES, out, NAMES, &count) != PE_C_DONE)
        memset(out, 0, NAMES * sizeof *out);
}

METHOD(section_headers)
{
    OPEN_OWN
    Budget names = budget;
    pe_c_range long_names[NAMES];
    rows = rows_of(self, &budget);
    rows.names = &names;
    rows.long_names = long_names;
    for (uint32_t i = 0; i < self->info.number_of_sections && goes_on(&rows); i++) {
        if (i % NAMES == 0 && !names.is_over)
            read_long_names(self, i, long_names);
        append(&rows, row_section(self, &rows, &self->sections[i]));
    }
    budget.is_over |= names.is_over;
    return finished(&rows);
}

METHOD(bound_imports)
{
    OPEN
    pe_c_range table = PE_C_EMPTY;
    pe_c_bound_import item = PE_C_EMPTY;
    rows = rows_of(self, &budget);
    starts(&rows, pe_c_bound_imports(VIEW, &table));
    pe_c_range walk = table;
    EACH(&rows, pe_c_next_bound_import(BYTES, &table, &walk, &item), ROW_OF(bound_import));
    return finished(&rows);
}

METHOD(clr_metadata)
{
    OPEN
    pe_c_cor20_header header = PE_C_EMPTY;
    pe_c_metadata item = PE_C_EMPTY;
    rows.result = pe_c_clr_header(VIEW, &header);
    if (rows.result == PE_C_DONE)
        rows.result = pe_c_clr_metadata(VIEW, &header, &item);
    return answer(rows.result == PE_C_DONE ? ROW_OF(metadata) : NULL, &rows);
}

/* Pays for what was read of a forwarder that has no text; a text is paid for with its row. */
static int pays_without_text(Image *self, Rows *rows, const pe_c_exported *it)
{
    return !it->is_forwarder || it->forwarder.length || pays(rows->budget, unread(self, it->rva));
}

/* A walk over so many names of exports from an index on. */
static pe_c_exports names_from(const pe_c_exports *all, uint64_t first, uint64_t count)
{
    return (pe_c_exports){{all->names.offset + 4 * first, 4 * count}, {all->ordinals.offset + 2 * first, 2 * count},
                          all->addresses, 0, all->directory};
}

/* An export with a name, whose index is marked. */
static void add_export(Rows *rows, const pe_c_address_table *table, const pe_c_export *named, uint8_t *is_named)
{
    pe_c_exported item = {.forwarder = named->forwarder, .ordinal = (uint64_t)table->ordinal_base + named->index,
                          .rva = named->rva, .is_forwarder = named->is_forwarder};
    if (!pays_without_text(rows->image, rows, &item))
        return;
    is_named[named->index] = 1;
    append(rows, takes(rows, named->name.length) ? row_exported(rows->image, rows, &item, named) : NULL);
}

/* The exports of so many names, of which the walk skips some, as it does with those that are no texts: each name is a walk of
 * its own, after which what was read of it is paid for. */
static void add_one_by_one(Rows *rows, const pe_c_exports *part, const pe_c_address_table *table, uint8_t *is_named)
{
    Image *self = rows->image;
    pe_c_export named = PE_C_EMPTY;
    for (uint64_t i = 0; goes_on(rows) && i < part->names.length / 4; i++) {
        pe_c_export_walk walk = {.exports = names_from(part, i, 1)};
        uint32_t result = pe_c_next_export(VIEW, &walk, &named);
        if (result != PE_C_DONE && result != PE_C_NOTHING)
            rows->result = result;
        const uint8_t *rva = (const uint8_t *)self->view.buf + part->names.offset + 4 * i;
        if (result == PE_C_NOTHING)
            pays(rows->budget, rows->budget->each + unread(self, rva[0] | rva[1] << 8 | rva[2] << 16 | (uint32_t)rva[3] << 24));
        if (result == PE_C_DONE)
            add_export(rows, table, &named, is_named);
    }
}

LISTED(list_exports, pe_c_list_exports(VIEW, walk, runs, run_count, items, most, count))

/* The exports with a name, in the order of the names. */
static void add_named(Rows *rows, const pe_c_exports *all, const pe_c_address_table *table, uint8_t *is_named)
{
    Chunk chunk = {NULL, NULL, 0, 0};
    uint64_t count, total = all->names.length / 4;
    for (uint64_t i = 0; i < total && goes_on(rows) && makes_room(rows, &chunk, sizeof(pe_c_export)); i += count) {
        count = total - i < chunk.most ? total - i : chunk.most;
        pe_c_exports part = names_from(all, i, count);
        pe_c_export_walk walk = {.exports = part};
        takes_items(rows, &chunk, list_exports, &walk, count);
        if (rows->result != PE_C_DONE || chunk.count < count) {
            rows->result = PE_C_DONE;
            add_one_by_one(rows, &part, table, is_named);
            continue;
        }
        for (uint64_t it = 0; it < count && goes_on(rows); it++)
            add_export(rows, table, (const pe_c_export *)chunk.items + it, is_named);
    }
    ends(&chunk);
}

/* Those without, in the order of their ordinals. An RVA of 0 is that of an unused ordinal. */
static void add_unnamed(Image *self, Rows *rows, const pe_c_address_table *table, const uint8_t *is_named)
{
    pe_c_exported item = PE_C_EMPTY;
    for (uint64_t i = 0; goes_on(rows) && i < table->addresses.length / 4; i++)
        if (!is_named[i] && pe_c_export_at(VIEW, table, i, &item) == PE_C_DONE && pays_without_text(self, rows, &item) && item.rva)
            append(rows, row_exported(self, rows, &item, NULL));
}

METHOD(exports)
{
    OPEN
    pe_c_address_table table = PE_C_EMPTY;
    pe_c_exports walk = PE_C_EMPTY;
    rows = rows_of(self, &budget);
    starts(&rows, pe_c_export_addresses(VIEW, &table));
    if (rows.result == PE_C_DONE)
        starts(&rows, pe_c_export_tables(VIEW, &walk));
    if (rows.list && rows.result == PE_C_DONE) {
        uint8_t *is_named = PyMem_Calloc(table.addresses.length / 4 + 1, 1);
        if (is_named) {
            add_named(&rows, &walk, &table, is_named);
            add_unnamed(self, &rows, &table, is_named);
        } else {
            Py_CLEAR(rows.list);
            PyErr_NoMemory();
        }
        PyMem_Free(is_named);
    }
    return finished(&rows);
}

LIST_BY(OPEN_OWN, relocations, pe_c_range, pe_c_relocation_blocks(VIEW, &walk), pe_c_relocation_block,
        pe_c_next_relocation_block(BYTES, &walk, &item), ROW_OF(relocation_block))

#define FUNCTIONS(name, Item, start, size, call, row) \
    METHOD(name) \
    { \
        OPEN_OWN \
        pe_c_range table = PE_C_EMPTY; \
        Item item = PE_C_EMPTY; \
        rows = rows_of(self, &budget); \
        starts(&rows, start(VIEW, &table)); \
        uint64_t i = 0, count = table.length / size; \
        EACH(&rows, i < count ? call(BYTES, &table, i++, &item) : PE_C_NOTHING, row); \
        return finished(&rows); \
    }
FUNCTIONS(functions, pe_c_function, pe_c_function_table, 12, pe_c_function_at, ROW_OF(function))
FUNCTIONS(arm64_functions, pe_c_arm64_function, pe_c_arm64_table, 8, pe_c_arm64_function_at, ROW_OF(arm64_function))

/* ---- methods with arguments */

/* An RVA. A number that is none has no section, so it is PE_C_NOTHING. */
static int rva_of(PyObject *argument, uint32_t *rva, uint32_t *result)
{
    unsigned long long number = PyLong_AsUnsignedLongLong(argument);
    if (number == (unsigned long long)-1 && PyErr_Occurred())
        return 0;
    *rva = (uint32_t)number;
    *result = number >> 32 ? PE_C_NOTHING : PE_C_DONE;
    return 1;
}

/* A call that returns a number of an RVA, or of a field of the load configuration, PE_C_CONFIG_. */
#define NUMBER_BY(name, call) \
    static PyObject *name(Image *self, PyObject *argument) \
    { \
        uint64_t number = 0; \
        uint32_t by, result; \
        if (!rva_of(argument, &by, &result)) \
            return NULL; \
        OPEN \
        rows.result = result == PE_C_DONE ? call(VIEW, by, &number) : result; \
        return answer(rows.result == PE_C_DONE ? N(number) : NULL, &rows); \
    }
NUMBER_BY(offset_of, pe_c_offset)
NUMBER_BY(load_config_field, pe_c_load_config_field)

#define FIND(name, Item, start, call, row) \
    static PyObject *name(Image *self, PyObject *argument) \
    { \
        pe_c_range table = PE_C_EMPTY; \
        Item item = PE_C_EMPTY; \
        uint32_t rva, result; \
        if (!rva_of(argument, &rva, &result)) \
            return NULL; \
        OPEN \
        rows.result = result == PE_C_DONE ? start(VIEW, &table) : result; \
        if (rows.result == PE_C_DONE) \
            rows.result = call; \
        return answer(rows.result == PE_C_DONE ? row : NULL, &rows); \
    }
FIND(find_function, pe_c_function, pe_c_function_table, pe_c_find_function(BYTES, &table, rva, &item), ROW_OF(function))
FIND(unwind_record, pe_c_record, pe_c_function_table, pe_c_unwind_record(VIEW, &table, rva, &item), ROW_OF(record))
FIND(find_arm64_function, pe_c_arm64_function, pe_c_arm64_table, pe_c_find_arm64_function(VIEW, &table, rva, &item),
     ROW_OF(arm64_function))

/* The records of a function by its field `unwind`, up to the root of its chain. */
static PyObject *unwind_records(Image *self, PyObject *argument)
{
    pe_c_range table = PE_C_EMPTY;
    pe_c_plan_walk walk = PE_C_EMPTY;
    pe_c_record item = PE_C_EMPTY;
    uint32_t unwind, result;
    if (!rva_of(argument, &unwind, &result))
        return NULL;
    OPEN
    rows = rows_of(self, &budget);
    rows.result = result == PE_C_DONE ? pe_c_function_table(VIEW, &table) : result;
    pe_c_plan_from(unwind, &walk.plan);
    EACH(&rows, pe_c_next_record(VIEW, &table, &walk, &item), ROW_OF(record));
    return finished(&rows);
}

static PyObject *arm64_unwind(Image *self, PyObject *arguments)
{
    unsigned int begin, unwind;
    if (!PyArg_ParseTuple(arguments, "II", &begin, &unwind))
        return NULL;
    OPEN
    pe_c_arm64_function function = {begin, unwind};
    pe_c_arm64_packed packed = PE_C_EMPTY;
    pe_c_arm64_record item = PE_C_EMPTY;
    pe_c_arm64_packed_fields(&function, &packed);
    if (packed.is_packed)
        return answer(row_arm64_packed(self, &rows, &packed), &rows);
    rows.result = pe_c_arm64_unwind_record(VIEW, &function, &item);
    return answer(rows.result == PE_C_DONE ? ROW_OF(arm64_record) : NULL, &rows);
}

/* A range, and an id after it where that is not NULL. */
static int range_and(PyObject *arguments, pe_c_range *out, unsigned int *id)
{
    unsigned long long offset, length;
    if (!PyArg_ParseTuple(arguments, id ? "KKI" : "KK", &offset, &length, id))
        return 0;
    *out = (pe_c_range){offset, length};
    return 1;
}
#define range_of(arguments, out) range_and(arguments, out, NULL)

/* ---- the directories of resources, by their offsets in the tree */

/* The tree, and a directory in it. */
static uint32_t directory_of(Image *self, uint32_t offset, pe_c_range *tree, pe_c_resource_directory *out)
{
    pe_c_resource_walk walk = PE_C_EMPTY;
    uint32_t result = pe_c_resource_leaves(VIEW, &walk);
    *tree = walk.tree;
    return result == PE_C_DONE ? pe_c_resource_directory_at(BYTES, tree, offset, out) : result;
}

/* resource_directory_at(offset): the directory, and the file offsets of the tree and of its entries. */
static PyObject *resource_directory_at(Image *self, PyObject *argument)
{
    pe_c_range tree = PE_C_EMPTY;
    pe_c_resource_directory item = PE_C_EMPTY;
    uint32_t offset, result;
    if (!rva_of(argument, &offset, &result))
        return NULL;
    OPEN_OWN
    rows.result = result == PE_C_DONE ? directory_of(self, offset, &tree, &item) : result;
    return answer(rows.result == PE_C_DONE ? Py_BuildValue("(NKK)", ROW_OF(resource_directory), (unsigned long long)tree.offset,
                                                           (unsigned long long)item.entries.offset) : NULL, &rows);
}

/* An entry: the id or the name, the file offset of the name, the offset to which it leads, and whether a directory is there. */
static PyObject *resource_item(Image *self, const pe_c_resource_item *it)
{
    return Py_BuildValue("(NKkN)", resource_name(self, it->name), (unsigned long long)it->name.name.offset,
                         (unsigned long)it->offset, B(it->is_directory));
}

/* resource_items(offset): the entries of a directory. */
static PyObject *resource_items(Image *self, PyObject *argument)
{
    pe_c_range tree = PE_C_EMPTY;
    pe_c_resource_directory directory = PE_C_EMPTY;
    pe_c_resource_item item = PE_C_EMPTY;
    uint32_t offset, result;
    if (!rva_of(argument, &offset, &result))
        return NULL;
    OPEN
    rows = rows_of(self, &budget);
    starts(&rows, result == PE_C_DONE ? directory_of(self, offset, &tree, &directory) : result);
    EACH(&rows, pe_c_next_resource_item(BYTES, &tree, &directory.entries, &item),
         takes(&rows, item.name.name.length) ? resource_item(self, &item) : NULL);
    return finished(&rows);
}

static PyObject *version_blocks(Image *self, PyObject *arguments)
{
    pe_c_range content;
    if (!range_of(arguments, &content))
        return NULL;
    OPEN
    rows = rows_of(self, &budget);
    add_version_blocks(self, &rows, content);
    return finished(&rows);
}

/* ---- signatures: each call reads the element in a range. Others read a record there */

#define SIGNED(name, Item, call, row) \
    static PyObject *name(Image *self, PyObject *arguments) \
    { \
        pe_c_range range; \
        pe_c_signature_failure failure = PE_C_EMPTY; \
        Item item = PE_C_EMPTY; \
        if (!range_of(arguments, &range)) \
            return NULL; \
        OPEN \
        (void)failure; \
        rows.result = call; \
        return answer(rows.result == PE_C_DONE ? row : NULL, &rows); \
    }
/* A list; `wanted` is `&id` where its arguments have an id, or NULL. */
#define SIGNED_LIST(name, wanted, Walk, start, Item, call, row) \
    static PyObject *name(Image *self, PyObject *arguments) \
    { \
        pe_c_range range; \
        unsigned int id = 0; \
        pe_c_signature_failure failure = PE_C_EMPTY; \
        Walk walk = PE_C_EMPTY; \
        Item item = PE_C_EMPTY; \
        if (!range_and(arguments, &range, wanted)) \
            return NULL; \
        OPEN_OWN \
        (void)id; \
        rows = rows_of(self, &budget); \
        rows.result = start; \
        EACH(&rows, call, row); \
        return finished(&rows); \
    }
SIGNED_LIST(elements, NULL, pe_c_range, (walk = range, PE_C_DONE), pe_c_der_element,
            pe_c_next_element(BYTES, &walk, &failure, &item), ROW_OF(der_element))
SIGNED_LIST(attributes, &id, pe_c_range, (walk = range, PE_C_DONE), pe_c_signer_attribute,
            pe_c_find_attribute(BYTES, &walk, id, &failure, &item), ROW_OF(signer_attribute))
SIGNED_LIST(name_attributes, NULL, pe_c_name_walk, pe_c_name(BYTES, &range, &failure, &walk), pe_c_name_attribute,
            pe_c_next_name_attribute(BYTES, &walk, &failure, &item), ROW_OF(name_attribute))

/* ---- minidumps: each call reads the stream of a kind */

static uint32_t stream_of(Image *self, uint32_t kind, pe_c_range *out)
{
    pe_c_dump_info info = PE_C_EMPTY;
    uint32_t result = pe_c_dump(BYTES, &info);
    if (kind == 0)
        *out = info.directory;
    return result != PE_C_DONE || kind == 0 ? result : pe_c_dump_stream(BYTES, &info.directory, kind, out);
}

#define STREAM(name, kind, Item, call, row) \
    METHOD(name) \
    { \
        OPEN_OWN \
        Item item = PE_C_EMPTY; \
        pe_c_range stream = PE_C_EMPTY; \
        rows.result = stream_of(self, kind, &stream); \
        if (rows.result == PE_C_DONE) \
            rows.result = call; \
        return answer(rows.result == PE_C_DONE ? row : NULL, &rows); \
    }
#define STREAM_LIST(name, kind, Item, call, row) \
    METHOD(name) \
    { \
        OPEN_OWN \
        Item item = PE_C_EMPTY; \
        pe_c_range stream = PE_C_EMPTY; \
        uint64_t i = 0; \
        rows = rows_of(self, &budget); \
        rows.result = stream_of(self, kind, &stream); \
        EACH(&rows, call, row); \
        return finished(&rows); \
    }
static uint32_t memory64_of(Image *self, pe_c_memory64_walk *out)
{
    pe_c_range stream = PE_C_EMPTY;
    uint32_t result = stream_of(self, PE_C_MEMORY64_LIST_STREAM, &stream);
    return result == PE_C_DONE ? pe_c_dump_memory64(BYTES, &stream, out) : result;
}

LIST(dump_memory64, pe_c_memory64_walk, memory64_of(self, &walk), pe_c_dump_piece, pe_c_next_memory64(BYTES, &walk, &item),
     ROW_OF(dump_piece))

/* ---- the memory of a dump */

/* Pieces in the order in which they count, in an array that has room for all of them. */
typedef struct {
    pe_c_memory_piece *all;
    uint64_t count;
} Pieces;

static void add_piece(Image *self, Pieces *to, pe_c_memory_piece piece)
{
    uint64_t length = (uint64_t)self->view.len, there = piece.offset < length ? length - piece.offset : 0;
    piece.length = piece.length < there ? piece.length : there;
    if (piece.length)
        to->all[to->count++] = piece;
}

/* Those of both lists, then the stacks of the threads: not at offset 0, which full dumps say of all stacks. There the file has its
 * header. */
static void add_pieces(Image *self, Pieces *to, const pe_c_range *list, pe_c_memory64_walk *full, const pe_c_range *threads)
{
    pe_c_dump_piece it = PE_C_EMPTY;
    pe_c_dump_thread thread = PE_C_EMPTY;
    for (uint64_t i = 0; pe_c_dump_memory_at(BYTES, list, i, &it) == PE_C_DONE; i++)
        add_piece(self, to, it.memory);
    while (pe_c_next_memory64(BYTES, full, &it) == PE_C_DONE)
        add_piece(self, to, it.memory);
    for (uint64_t i = 0; pe_c_dump_thread_at(BYTES, threads, i, &thread) == PE_C_DONE; i++) {
        pe_c_dump_location at = thread.stack.memory;
        if (at.rva != 0)
            add_piece(self, to, (pe_c_memory_piece){thread.stack.start_of_memory_range, at.rva, at.size});
    }
}

/* The records of pe_c_memory_runs, in bytes. */
METHOD(dump_runs)
{
    OPEN_OWN
    pe_c_range list = PE_C_EMPTY, threads = PE_C_EMPTY;
    pe_c_memory64_walk full = PE_C_EMPTY;
    (void)stream_of(self, PE_C_MEMORY_LIST_STREAM, &list);
    (void)stream_of(self, PE_C_THREAD_LIST_STREAM, &threads);
    (void)memory64_of(self, &full);
    /* Each has 16 bytes of its list or more. */
    uint64_t most = (list.length + full.entries.length + threads.length) / 16, written = 0;
    Pieces pieces = {PyMem_Malloc(most * sizeof *pieces.all), 0};
    pe_c_range_entry *entries = PyMem_Malloc(4 * most * sizeof *entries);
    pe_c_memory_piece *runs = PyMem_Malloc(2 * most * sizeof *runs);
    PyObject *found = NULL;
    if (pieces.all && entries && runs) {
        Py_BEGIN_ALLOW_THREADS
        add_pieces(self, &pieces, &list, &full, &threads);
        rows.result = pe_c_memory_runs(pieces.all, pieces.count, entries, 4 * most, runs, 2 * most, &written);
        Py_END_ALLOW_THREADS
        found = bytes_of((const uint8_t *)runs, written * sizeof *runs);
    } else {
        PyErr_NoMemory();
    }
    PyMem_Free(pieces.all);
    PyMem_Free(entries);
    PyMem_Free(runs);
    return answer(found, &rows);
}

#define CONTEXT(name, Item, call, row) \
    static PyObject *name(Image *self, PyObject *arguments) \
    { \
        pe_c_dump_location location; \
        Item item = PE_C_EMPTY; \
        if (!PyArg_ParseTuple(arguments, "II", &location.size, &location.rva)) \
            return NULL; \
        OPEN_OWN \
        rows.result = call; \
        return answer(rows.result == PE_C_DONE ? row : NULL, &rows); \
    }
#include "_calls.h"
#include "_pdb.h"

/* ---- stack walks */

/* Of the images of modules, which none closes while they are in use. A module without an image has None. */
static void uses(PyObject *images, int change)
{
    for (Py_ssize_t i = 0; i < PyTuple_Size(images); i++)
        if (PyTuple_GetItem(images, i) != Py_None)
            ((Image *)PyTuple_GetItem(images, i))->users += change;
}

/* The function table of a module. Of one that is damaged the whole entries serve, as Windows divides its size: those that the
 * bytes have. */
static pe_c_range functions_of(Image *self)
{
    pe_c_range table = PE_C_EMPTY;
    int is_arm64 = self->info.machine == 0xAA64;
    uint32_t result = is_arm64 ? pe_c_arm64_table(VIEW, &table) : pe_c_function_table(VIEW, &table);
    if (result == PE_C_DONE || result == PE_C_NOTHING)
        return result == PE_C_DONE ? table : (pe_c_range)PE_C_EMPTY;
    pe_c_directory at = self->info.directories[PE_C_DIRECTORY_EXCEPTION];
    uint64_t offset = 0, length = (uint64_t)self->view.len, entry = is_arm64 ? 8 : 12;
    if (pe_c_offset(VIEW, at.virtual_address, &offset) != PE_C_DONE || offset > length)
        return (pe_c_range)PE_C_EMPTY;
    uint64_t size = at.size < length - offset ? at.size : length - offset;
    return (pe_c_range){offset, size / entry * entry};
}

/* The bytes of the function table, or why it is damaged. */
METHOD(function_table)
{
    OPEN_OWN
    pe_c_range item = PE_C_EMPTY;
    rows.result = self->info.machine == 0xAA64 ? pe_c_arm64_table(VIEW, &item) : pe_c_function_table(VIEW, &item);
    return answer(rows.result == PE_C_DONE ? view_of(self, item) : NULL, &rows);
}

/* The modules, each an image or None, the address where it is loaded and the size of what has no image, in an array that the
 * caller frees. They stay valid as long as the images are open. The records of those without an image are after the modules. */
static pe_c_module *modules_in(State *state, PyObject *images, PyObject *bases, PyObject *sizes)
{
    size_t count = (size_t)PyTuple_Size(images);
    pe_c_module *modules = PyMem_Calloc(count + 1, sizeof *modules + sizeof(pe_c_image_info));
    pe_c_image_info *missing = (pe_c_image_info *)(modules + count + 1);
    int is_well = (size_t)PyBytes_Size(bases) == 8 * count && (size_t)PyBytes_Size(sizes) == 4 * count;
    if (!modules)
        PyErr_NoMemory();
    for (size_t i = 0; modules && i < count; i++) {
        Image *self = (Image *)PyTuple_GetItem(images, (Py_ssize_t)i);
        int is_missing = (PyObject *)self == Py_None;
        if (!is_well || (!is_missing && (!PyObject_TypeCheck((PyObject *)self, state->image) || !self->memory))) {
            PyErr_SetString(PyExc_ValueError, "a module without an address, or that is no open image");
            PyMem_Free(modules);
            return NULL;
        }
        memcpy(&missing[i].size_of_image, PyBytes_AsString(sizes) + 4 * i, 4);
        if (is_missing)
            modules[i].image.image = &missing[i];
        else
            modules[i] = (pe_c_module){*VIEW, functions_of(self), 0};
        memcpy(&modules[i].base, PyBytes_AsString(bases) + 8 * i, 8);
    }
    return modules;
}

/* frames(images, bases, sizes, pieces, registers, most) walks a stack in this memory, without the GIL: of each frame a row, and
 * last one of the walk as it ended. Bases, sizes, pieces and registers are the numbers of pe.h's records, in bytes. */
#define WALK(name, Walk, call, row) \
    static PyObject *name(Image *self, PyObject *arguments) \
    { \
        PyObject *images, *bases, *sizes, *pieces, *registers; \
        Walk walk = PE_C_EMPTY; \
        uint64_t count = 0; \
        unsigned int most; \
        if (!PyArg_ParseTuple(arguments, "O!SSSSI", &PyTuple_Type, &images, &bases, &sizes, &pieces, &registers, &most)) \
            return NULL; \
        most = most < MOST_FRAMES ? most : MOST_FRAMES; \
        OPEN_OWN \
        budget.bytes += (uint64_t)(most + 1) * sizeof walk * ROW_COST; \
        pe_c_module *modules = modules_in(self->state, images, bases, sizes); \
        Walk *frames = modules ? PyMem_Calloc(most + 1u, sizeof walk) : NULL; \
        if (modules && !frames) \
            PyErr_NoMemory(); \
        if (frames) { \
            size_t length = (size_t)PyBytes_Size(registers), own = sizeof walk.registers; \
            memcpy(&walk.registers, PyBytes_AsString(registers), length < own ? length : own); \
            walk.remaining = most; \
            const pe_c_memory_piece *all = (const pe_c_memory_piece *)PyBytes_AsString(pieces); \
            size_t module_count = (size_t)PyTuple_Size(images), piece_count = (size_t)PyBytes_Size(pieces) / sizeof *all; \
            uses(images, 1); \
            UNLOCKED(rows.result, call(modules, module_count, BYTES, all, piece_count, &walk, frames, most + 1u, &count)); \
            uses(images, -1); \
            rows.result = rows.result == PE_C_NOTHING ? PE_C_DONE : rows.result; \
            frames[count] = walk; \
            rows.list = PyList_New(0); \
        } \
        for (uint64_t i = 0; i <= count && goes_on(&rows); i++) \
            append(&rows, row(self, &rows, &frames[i])); \
        PyMem_Free(modules); \
        PyMem_Free(frames); \
        return finished(&rows); \
    }
WALK(frames, pe_c_stack_walk, pe_c_next_frames, row_stack_walk)
WALK(arm64_frames, pe_c_arm64_stack_walk, pe_c_next_arm64_frames, row_arm64_stack_walk)

/* function_names(addresses, most) returns what names each of these addresses, or None, without the GIL: the numbers of
 * pe_c_code_address, in bytes. So many bytes of names at most are rows: those that follow are None. */
static PyObject *function_names(Image *self, PyObject *arguments)
{
    PyObject *addresses;
    unsigned long long most;
    if (!PyArg_ParseTuple(arguments, "SK", &addresses, &most))
        return NULL;
    OPEN_OWN
    size_t count = (size_t)PyBytes_Size(addresses) / sizeof(pe_c_code_address);
    budget.bytes = most;
    budget.each = 0;
    pe_c_name_sources sources = PE_C_EMPTY;
    UNLOCKED(rows.result, pe_c_name_tables(VIEW, &sources));
    uint64_t *room = sources.room < PY_SSIZE_T_MAX / sizeof *room ? PyMem_Malloc((size_t)(sources.room + 1) * sizeof *room) : NULL;
    pe_c_function_name *names = PyMem_Calloc(count + 1, sizeof *names);
    if (room && names) {
        UNLOCKED(rows.result, pe_c_function_names(VIEW, &sources, (const pe_c_code_address *)PyBytes_AsString(addresses), count, room,
                                                  (size_t)sources.room, names, count));
        rows.list = PyList_New(0);
    } else {
        PyErr_NoMemory();
    }
    PyMem_Free(room);
    for (size_t i = 0; i < count && rows.list && rows.result == PE_C_DONE; i++) {
        PyObject *row = names[i].source && !budget.is_over ? row_function_name(self, &rows, &names[i]) : NULL;
        append(&rows, row || PyErr_Occurred() ? row : Py_NewRef(Py_None));
    }
    PyMem_Free(names);
    return finished(&rows);
}

/* ---- whole files, without the GIL */

METHOD(checksum)
{
    OPEN
    pe_c_checksum_field item = PE_C_EMPTY;
    UNLOCKED(rows.result, pe_c_checksum(VIEW, &item));
    return answer(rows.result == PE_C_DONE ? ROW_OF(checksum_field) : NULL, &rows);
}

/* How often each byte stands in a range, as far as the file has it. */
static PyObject *histogram(Image *self, PyObject *arguments)
{
    pe_c_range range;
    if (!range_of(arguments, &range))
        return NULL;
    OPEN
    uint64_t length = (uint64_t)self->view.len, counts[256] = {0};
    const uint8_t *bytes = self->view.buf;
    uint64_t start = range.offset < length ? range.offset : length;
    uint64_t end = range.length < length - start ? start + range.length : length;
    Py_BEGIN_ALLOW_THREADS
    for (uint64_t i = start; i < end; i++)
        counts[bytes[i]]++;
    Py_END_ALLOW_THREADS
    return answer(numbers(counts, 256), &rows);
}

/* What an Authenticode digest covers: the ranges, and how many zeros follow. */
METHOD(digest_ranges)
{
    OPEN
    pe_c_digest item = PE_C_EMPTY;
    rows.result = pe_c_digest_ranges(VIEW, &item);
    if (rows.result != PE_C_DONE)
        return answer(NULL, &rows);
    return answer(Py_BuildValue("(NNNNK)", view_of(self, item.ranges[0]), view_of(self, item.ranges[1]),
                                view_of(self, item.ranges[2]), view_of(self, item.ranges[3]),
                                (unsigned long long)item.zeros), &rows);
}

#include "_written.h"

/* write_version(fixed, tables, strings, translations, texts) returns version information, or None, and the number of the error.
 * All but the texts are records of pe.h, each in bytes, which stand at a multiple of eight. */
static PyObject *write_version(PyObject *Py_UNUSED(module), PyObject *arguments)
{
    PyObject *fixed, *tables, *strings, *translations, *texts;
    pe_c_version numbers = PE_C_EMPTY;
    uint64_t size = 0;
    if (!PyArg_ParseTuple(arguments, "SSSSS", &fixed, &tables, &strings, &translations, &texts))
        return NULL;
    size_t length = (size_t)PyBytes_Size(fixed);
    memcpy(&numbers, PyBytes_AsString(fixed), length < sizeof numbers ? length : sizeof numbers);
#define VERSION &numbers, RECORDS(tables, pe_c_version_table), RECORDS(strings, pe_c_version_string), \
                RECORDS(translations, pe_c_version_language), RECORDS(texts, uint8_t)
    uint32_t result = pe_c_write_version(VERSION, NULL, 0, &size);
    PyObject *version = result == PE_C_ROOM ? PyBytes_FromStringAndSize(NULL, (Py_ssize_t)size) : Py_NewRef(Py_None);
    if (version && result == PE_C_ROOM)
        result = pe_c_write_version(VERSION, (uint8_t *)PyBytes_AsString(version), (size_t)size, &size);
    return version ? Py_BuildValue("(Nk)", version, (unsigned long)result) : NULL;
}

/* ---- the image as an object */

static void let_go(Image *self)
{
    if (!self->memory)
        return;
    Py_CLEAR(self->memory);
    PyBuffer_Release(&self->view);
    PyMem_Free(self->sections);
    PyMem_Free(self->index);
}

METHOD(close_image)
{
    if (self->users) {
        PyErr_SetString(PyExc_BufferError, "another call reads this image");
        return NULL;
    }
    let_go(self);
    Py_RETURN_NONE;
}

static PyObject *get_memory(Image *self, void *Py_UNUSED(none))
{
    return is_open(self) ? Py_NewRef(self->memory) : NULL;
}

static PyObject *get_closed(Image *self, void *Py_UNUSED(none))
{
    return B(!self->memory);
}

/* The collector does not see the buffer: it would clear a memoryview in a cycle while the image has it. */
static int traverse(Image *self, visitproc visit, void *arg)
{
    Py_VISIT((PyObject *)Py_TYPE((PyObject *)self));
    return 0;
}

static void finish(Image *self)
{
    PyTypeObject *type = Py_TYPE((PyObject *)self);
    PyObject_GC_UnTrack(self);
    let_go(self);
    freefunc release = (freefunc)PyType_GetSlot(type, Py_tp_free);
    release(self);
    Py_DECREF(type);
}

/* A memoryview of the bytes that the image has as its buffer, which can't be written. */
static PyObject *memory_of(Image *self, PyObject *data)
{
    PyObject *memory = PyMemoryView_FromObject(data);
    PyObject *bytes = memory ? PyObject_CallMethod(memory, "cast", "s", "B") : NULL;
    PyObject *readonly = bytes ? PyObject_CallMethod(bytes, "toreadonly", NULL) : NULL;
    Py_XDECREF(memory);
    Py_XDECREF(bytes);
    if (readonly && PyObject_Size(readonly) != self->view.len) {
        PyErr_SetString(PyExc_BufferError, "the object has another buffer each time");
        Py_CLEAR(readonly);
    }
    return readonly;
}

/* Whether others may write what an object shows, as what a memoryview is of that cannot be written itself. */
static int may_change(PyObject *data, const Py_buffer *view)
{
    PyObject *shown = view->readonly && PyMemoryView_Check(data) ? PyObject_GetAttrString(data, "obj") : NULL;
    Py_buffer of;
    int is_writable = !view->readonly || (shown && shown != Py_None && PyObject_GetBuffer(shown, &of, PyBUF_WRITABLE) == 0);
    if (view->readonly && is_writable)
        PyBuffer_Release(&of);
    Py_XDECREF(shown);
    PyErr_Clear();
    return is_writable;
}

/* Holds the buffer of the object, or a copy of one that others may write while a call reads. */
static int holds(Image *self, PyObject *data, int is_copied)
{
    if (PyObject_GetBuffer(data, &self->view, PyBUF_SIMPLE) < 0)
        return 0;
    if (is_copied && may_change(data, &self->view)) {
        data = PyBytes_FromStringAndSize(self->view.buf, self->view.len);
        PyBuffer_Release(&self->view);
        if (!data || PyObject_GetBuffer(data, &self->view, PyBUF_SIMPLE) < 0) {
            Py_XDECREF(data);
            return 0;
        }
    } else {
        Py_INCREF(data);
    }
    self->memory = memory_of(self, data);
    Py_DECREF(data);
    if (!self->memory)
        PyBuffer_Release(&self->view);
    return self->memory != NULL;
}

static uint32_t headers_of(Image *self, unsigned int mode)
{
    pe_c_headers_info all = PE_C_EMPTY;
    uint32_t result = self->kind == KIND_OBJECT  ? pe_c_coff(BYTES, &self->coff)
                      : self->kind == KIND_TE    ? pe_c_te(BYTES, &self->te)
                      : self->kind == KIND_IMAGE ? pe_c_image(BYTES, mode, &self->info)
                                                 : PE_C_DONE;
    if (self->kind == KIND_IMAGE && result == PE_C_DONE && pe_c_headers(BYTES, mode, &all) == PE_C_DONE)
        self->coff = all.coff;
    if (self->kind == KIND_OBJECT)
        self->info.sections_offset = 20u + self->coff.size_of_optional_header;
    if (self->kind != KIND_IMAGE)
        self->info.number_of_sections = self->kind == KIND_TE ? self->te.number_of_sections : self->coff.number_of_sections;
    return result;
}

/* Reads the section headers, and makes an index of many. */
static uint32_t sections_of(Image *self, size_t most)
{
    uint32_t result = self->kind == KIND_TE ? pe_c_te_sections(BYTES, &self->te, SECTIONS)
                                            : pe_c_sections(BYTES, &self->info, SECTIONS);
    if (self->index && result == PE_C_DONE)
        result = pe_c_index(VIEW, self->index, most, &self->entries);
    uint32_t strings = self->kind == KIND_OBJECT ? pe_c_coff_strings(BYTES, &self->coff, &self->strings)
                                                 : pe_c_string_table(VIEW, &self->strings);
    if (self->kind == KIND_TE || self->kind == KIND_BYTES || strings != PE_C_DONE)
        self->strings = (pe_c_range)PE_C_EMPTY;
    return result;
}

/* Reads the headers, and many sections without the GIL: no one else has the image yet. What takes microseconds keeps it, since threads
 * that open small files would wait for it longer than the call takes. Returns the library's result, or PE_C_MEMORY with an exception. */
static uint32_t reads(Image *self, unsigned int mode)
{
    uint32_t result = headers_of(self, mode);
    if (result != PE_C_DONE)
        return result;
    size_t count = self->info.number_of_sections, most = self->kind == KIND_IMAGE && count >= MANY_SECTIONS ? 4 * count : 0;
    self->sections = PyMem_Calloc(count + 1, sizeof *self->sections);
    self->index = most && self->sections ? PyMem_Calloc(most, sizeof *self->index) : NULL;
    if (!self->sections || (most && !self->index)) {
        PyErr_NoMemory();
        return PE_C_MEMORY;
    }
    if (count < MANY_SECTIONS)
        return sections_of(self, most);
    UNLOCKED(result, sections_of(self, most));
    return result;
}

/* image(data, mode, copy, kind, is_exact) returns an image, or None, and the number of the error. */
static PyObject *image(PyObject *module, PyObject *arguments)
{
    PyObject *data;
    unsigned int mode;
    int is_copied, kind, is_exact;
    if (!PyArg_ParseTuple(arguments, "OIpip", &data, &mode, &is_copied, &kind, &is_exact))
        return NULL;
    State *state = PyModule_GetState(module);
    allocfunc allocate = (allocfunc)PyType_GetSlot(state->image, Py_tp_alloc);
    Image *self = (Image *)allocate(state->image, 0);
    if (!self)
        return NULL;
    self->state = state;
    self->kind = kind;
    self->is_exact = is_exact;
    self->rows = MOST_ROWS;
    uint32_t result = holds(self, data, is_copied) ? reads(self, mode) : PE_C_MEMORY;
    PyObject *made = (PyObject *)self;
    if (result != PE_C_DONE) {
        Py_DECREF(made);
        made = Py_NewRef(Py_None);
    }
    if (PyErr_Occurred()) {
        Py_DECREF(made);
        return NULL;
    }
    return Py_BuildValue("(Nk)", made, (unsigned long)result);
}

static PyObject *text_of(PyObject *Py_UNUSED(module), PyObject *argument)
{
    char room[128];
    unsigned long number = PyLong_AsUnsignedLong(argument);
    if (number == (unsigned long)-1 && PyErr_Occurred())
        return NULL;
    size_t length = pe_c_text((uint32_t)number, room, sizeof room);
    return PyUnicode_DecodeUTF8(room, (Py_ssize_t)length, "strict");
}

#define WITHOUT(name) {#name, (PyCFunction)name, METH_NOARGS, NULL}
#define WITH_ONE(name) {#name, (PyCFunction)name, METH_O, NULL}
#define WITH_SOME(name) {#name, (PyCFunction)name, METH_VARARGS, NULL}
static PyMethodDef methods[] = {
    MADE_METHODS
    {"sections", (PyCFunction)section_headers, METH_NOARGS, NULL}, {"close", (PyCFunction)close_image, METH_NOARGS, NULL},
    WITHOUT(headers), WITHOUT(clr_metadata), WITHOUT(bound_imports),
    WITHOUT(relocations), WITHOUT(certificates), WITHOUT(exports), WITHOUT(functions), WITHOUT(arm64_functions),
    WITHOUT(function_table),
    WITHOUT(coff_header), WITHOUT(coff_strings), WITHOUT(symbols), WITHOUT(te_header), WITHOUT(te_symbol_key),
    WITHOUT(dump_memory64), WITHOUT(dump_runs), WITHOUT(checksum), WITHOUT(digest_ranges), WITHOUT(detach),
    WITH_ONE(offset_of), WITH_ONE(load_config_field), WITH_ONE(find_function), WITH_ONE(find_arm64_function), WITH_ONE(unwind_records), WITH_ONE(unwind_record),
    WITH_ONE(resource_directory_at), WITH_ONE(resource_items),
    WITH_SOME(arm64_unwind), WITH_SOME(version_blocks), WITH_SOME(elements), WITH_SOME(name_attributes), WITH_SOME(attributes),
    WITH_SOME(frames), WITH_SOME(arm64_frames), WITH_SOME(function_names), WITH_SOME(histogram), WITH_SOME(attach), WITH_SOME(edited),
    WITH_ONE(mapped),
    WITHOUT(pdb_starts), WITH_SOME(pdb_is_of), WITH_SOME(pdb_stream), WITH_SOME(pdb_modules), WITH_SOME(pdb_named_stream), WITH_SOME(pdb_moved_rva),
    WITH_SOME(pdb_symbols), WITH_SOME(pdb_index), WITH_SOME(pdb_find), WITH_SOME(pdb_line_index), WITH_SOME(pdb_files),
    WITH_SOME(pdb_lines), WITH_SOME(pdb_find_line), WITHOUT(pdb_ids), WITH_SOME(pdb_inlined),
    {NULL, NULL, 0, NULL}};
static PyGetSetDef getters[] = {{"memory", (getter)get_memory, NULL, NULL, NULL},
                                {"closed", (getter)get_closed, NULL, NULL, NULL}, {NULL, NULL, NULL, NULL, NULL}};
static PyType_Slot slots[] = {{Py_tp_dealloc, finish}, {Py_tp_traverse, traverse}, {Py_tp_methods, methods},
                              {Py_tp_getset, getters}, {0, NULL}};
static PyType_Spec spec = {"pe_c._core.Image", sizeof(Image), 0,
                           Py_TPFLAGS_DEFAULT | Py_TPFLAGS_HAVE_GC | Py_TPFLAGS_DISALLOW_INSTANTIATION, slots};

/* ---- the module */

static int start(PyObject *module)
{
    State *state = PyModule_GetState(module);
    state->image = (PyTypeObject *)PyType_FromModuleAndSpec(module, &spec, NULL);
    if (!state->image || PyModule_AddType(module, state->image) < 0)
        return -1;
    for (int kind = 0; kind < ROW_KINDS; kind++) {
        PyStructSequence_Desc description = row_kinds[kind];
        state->rows[kind] = PyStructSequence_NewType(&description);
        if (!state->rows[kind] || PyModule_AddType(module, state->rows[kind]) < 0)
            return -1;
    }
    return 0;
}

static int traverse_module(PyObject *module, visitproc visit, void *arg)
{
    State *state = PyModule_GetState(module);
    Py_VISIT(state->image);
    for (int kind = 0; kind < ROW_KINDS; kind++)
        Py_VISIT(state->rows[kind]);
    return 0;
}

static int clear_module(PyObject *module)
{
    State *state = PyModule_GetState(module);
    Py_CLEAR(state->image);
    for (int kind = 0; kind < ROW_KINDS; kind++)
        Py_CLEAR(state->rows[kind]);
    return 0;
}

static PyMethodDef functions_of_module[] = {WITH_SOME(image), WITH_SOME(write_version), WITH_ONE(text_of), {NULL, NULL, 0, NULL}};
/* From 3.12 on a slot says that interpreters with locks of their own may have the module, as all that changes is in
 * its state. 3.11, whose headers do not name it, refuses a slot that it does not know. */
enum { MULTIPLE_INTERPRETERS = 3 };
static PyModuleDef_Slot first_slots[] = {{Py_mod_exec, start}, {0, NULL}};
static PyModuleDef_Slot module_slots[] = {{Py_mod_exec, start}, {MULTIPLE_INTERPRETERS, (void *)2}, {0, NULL}};
static PyModuleDef definition = {PyModuleDef_HEAD_INIT, "pe_c._core", NULL, sizeof(State), functions_of_module,
                                 first_slots, traverse_module, clear_module, NULL};

PyMODINIT_FUNC PyInit__core(void)
{
    if (Py_Version >= 0x030C0000)
        definition.m_slots = module_slots;
    return PyModuleDef_Init(&definition);
}
