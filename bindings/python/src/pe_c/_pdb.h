/* Of pe_c._core: the calls over PDB files. The streams of a PDB are copied: a method that lists or finds something is one of an
 * Image of kind KIND_BYTES over the bytes of a stream. */

/* pdb_starts() returns where the directory lists the blocks of each stream: the numbers of pe_c_pdb_starts, in bytes. */
METHOD(pdb_starts)
{
    OPEN_OWN
    pe_c_pdb_info info = PE_C_EMPTY;
    PyObject *found = NULL;
    uint64_t written = 0;
    rows.result = pe_c_pdb(BYTES, &info);
    if (rows.result == PE_C_DONE && (found = PyBytes_FromStringAndSize(NULL, (Py_ssize_t)info.number_of_streams * 8)))
        rows.result = pe_c_pdb_starts(BYTES, (uint64_t *)PyBytes_AsString(found), info.number_of_streams, &written);
    if (rows.result != PE_C_DONE)
        Py_CLEAR(found);
    return answer(found, &rows);
}

/* Whether the PDB is that of an image whose key has this GUID and age. */
static PyObject *pdb_is_of(Image *self, PyObject *arguments)
{
    pe_c_key key = PE_C_EMPTY;
    pe_c_pdb_info info = PE_C_EMPTY;
    const char *guid;
    Py_ssize_t length;
    if (!PyArg_ParseTuple(arguments, "y#I", &guid, &length, &key.age))
        return NULL;
    memcpy(key.guid, guid, (size_t)length < sizeof key.guid ? (size_t)length : sizeof key.guid);
    OPEN_OWN
    rows.result = pe_c_pdb(BYTES, &info);
    if (rows.result == PE_C_DONE)
        rows.result = pe_c_is_pdb_of(&key, &info);
    return answer(B(rows.result == PE_C_DONE && length == sizeof key.guid), &rows);
}

/* Numbers or records that were handed out as bytes. */
#define ALL_OF(type, bytes) (const type *)PyBytes_AsString(bytes), (size_t)PyBytes_Size(bytes) / sizeof(type)
/* What a call writes to a room of bytes, by a call that says how long that has to be: `call` writes `most` items to `room`. */
#define TO_ROOM(type, call) \
    do { \
        uint64_t count = 0; \
        type *room = NULL; \
        size_t most = 0; \
        rows.result = call; \
        if (rows.result == PE_C_ROOM && count < PY_SSIZE_T_MAX / sizeof *room \
            && (found = PyBytes_FromStringAndSize(NULL, (Py_ssize_t)(count * sizeof *room)))) { \
            room = (type *)PyBytes_AsString(found); \
            most = (size_t)count; \
            UNLOCKED(rows.result, call); \
        } else if (rows.result == PE_C_DONE) { \
            found = PyBytes_FromStringAndSize(NULL, 0); \
        } \
        if (rows.result != PE_C_DONE) \
            Py_CLEAR(found); \
    } while (0)

/* pdb_stream(starts, number) returns a copy of a stream. */
static PyObject *pdb_stream(Image *self, PyObject *arguments)
{
    PyObject *starts, *found = NULL;
    unsigned int number;
    if (!PyArg_ParseTuple(arguments, "SI", &starts, &number))
        return NULL;
    OPEN_OWN
    TO_ROOM(uint8_t, pe_c_pdb_stream(BYTES, ALL_OF(uint64_t, starts), number, room, most, &count));
    return answer(found, &rows);
}

LISTED(list_pdb_modules, pe_c_list_pdb_modules(BYTES, walk, items, most, count))

/* The modules, of the DBI stream, by the range of their walk. */
static PyObject *pdb_modules(Image *self, PyObject *arguments)
{
    pe_c_range walk;
    if (!range_of(arguments, &walk))
        return NULL;
    OPEN_OWN
    rows = rows_of(self, &budget);
    EACH_OF(&rows, pe_c_pdb_module, list_pdb_modules, &walk, ROW_OF(pdb_module));
    return finished(&rows);
}

/* Which stream of a PDB has a name, of the info stream. */
static PyObject *pdb_named_stream(Image *self, PyObject *arguments)
{
    const char *name;
    Py_ssize_t length;
    uint32_t number = 0;
    if (!PyArg_ParseTuple(arguments, "y#", &name, &length))
        return NULL;
    OPEN_OWN
    rows.result = pe_c_pdb_named_stream(BYTES, (const uint8_t *)name, (size_t)length, &number);
    return answer(rows.result == PE_C_DONE ? N(number) : NULL, &rows);
}

/* Where the code at an RVA is by an OMAP table. */
static PyObject *pdb_moved_rva(Image *self, PyObject *arguments)
{
    unsigned int rva;
    uint32_t moved = 0;
    if (!PyArg_ParseTuple(arguments, "I", &rva))
        return NULL;
    OPEN_OWN
    rows.result = pe_c_pdb_moved_rva(BYTES, rva, &moved);
    return answer(rows.result == PE_C_DONE ? N(moved) : NULL, &rows);
}

/* ---- symbols. `sections` are the bytes of the stream with the section headers of the image */

typedef struct {
    pe_c_range left;
    const uint8_t *sections;
    size_t length;
} SymbolWalk;

#define SYMBOLS(walk) ((SymbolWalk *)(walk))
LISTED(list_pdb_symbols,
       pe_c_list_pdb_symbols(BYTES, SYMBOLS(walk)->sections, SYMBOLS(walk)->length, &SYMBOLS(walk)->left, items, most, count))

/* Public symbols and procedures: of other records nothing is read. */
static int is_function_record(uint16_t kind)
{
    return kind == 0x110E || kind == 0x110F || kind == 0x1110 || kind == 0x1146 || kind == 0x1147;
}

/* pdb_symbols(sections, offset, length) */
static PyObject *pdb_symbols(Image *self, PyObject *arguments)
{
    PyObject *sections;
    unsigned long long offset, length;
    if (!PyArg_ParseTuple(arguments, "SKK", &sections, &offset, &length))
        return NULL;
    OPEN_OWN
    SymbolWalk walk = {{offset, length}, (const uint8_t *)PyBytes_AsString(sections), (size_t)PyBytes_Size(sections)};
    rows = rows_of(self, &budget);
    EACH_OF(&rows, pe_c_pdb_symbol, list_pdb_symbols, &walk, is_function_record(item.kind) ? ROW_OF(pdb_symbol) : NULL);
    return finished(&rows);
}

/* pdb_index(kind, sections, offset, length) returns the entries of pe_c_pdb_index, in bytes. */
static PyObject *pdb_index(Image *self, PyObject *arguments)
{
    PyObject *sections, *found = NULL;
    unsigned int kind;
    unsigned long long offset, length;
    if (!PyArg_ParseTuple(arguments, "ISKK", &kind, &sections, &offset, &length))
        return NULL;
    OPEN_OWN
    pe_c_range symbols = {offset, length};
    TO_ROOM(uint64_t, pe_c_pdb_index(kind, BYTES, &symbols, ALL_OF(uint8_t, sections), room, most, &count));
    return answer(found, &rows);
}

/* pdb_find(kind, sections, index, rva) finds the symbol of an RVA by such entries, or None. */
static PyObject *pdb_find(Image *self, PyObject *arguments)
{
    PyObject *sections, *index;
    unsigned int kind, rva;
    if (!PyArg_ParseTuple(arguments, "ISSI", &kind, &sections, &index, &rva))
        return NULL;
    OPEN_OWN
    pe_c_pdb_symbol item = PE_C_EMPTY;
    rows.result = pe_c_find_pdb_symbol(kind, BYTES, ALL_OF(uint8_t, sections), ALL_OF(uint64_t, index), rva, &item);
    return answer(rows.result == PE_C_DONE ? ROW_OF(pdb_symbol) : NULL, &rows);
}

/* ---- lines, of the stream of a module. `names` are the bytes of the stream /names */

/* pdb_line_index(sections, offset, length) returns the entries of pe_c_pdb_lines, in bytes. */
static PyObject *pdb_line_index(Image *self, PyObject *arguments)
{
    PyObject *sections, *found = NULL;
    unsigned long long offset, length;
    if (!PyArg_ParseTuple(arguments, "SKK", &sections, &offset, &length))
        return NULL;
    OPEN_OWN
    pe_c_range lines = {offset, length};
    TO_ROOM(pe_c_pdb_line_entry, pe_c_pdb_lines(BYTES, &lines, ALL_OF(uint8_t, sections), room, most, &count));
    return answer(found, &rows);
}

/* Where the source files of the module are, as (offset, length), by the range of its lines; or None. */
static PyObject *pdb_files(Image *self, PyObject *arguments)
{
    pe_c_range lines, files = PE_C_EMPTY;
    if (!range_of(arguments, &lines))
        return NULL;
    OPEN_OWN
    rows.result = pe_c_pdb_files(BYTES, &lines, &files);
    return answer(rows.result == PE_C_DONE ? Py_BuildValue("(KK)", (unsigned long long)files.offset,
                                                           (unsigned long long)files.length) : NULL, &rows);
}

/* Source files by their names: that of the last line is kept, since most lines have the file of the one before. */
typedef struct {
    pe_c_range files;
    const uint8_t *names;
    size_t length;
    uint32_t last;
    PyObject *name;                 /* NULL before the first line */
} Files;

/* The name of a source file, or None where it is refused; NULL where the budget is over, or after an exception. What is read of one
 * that is refused may be all the names. */
static PyObject *file_name(Image *self, Rows *rows, Files *files, uint32_t file)
{
    if (files->name && files->last == file)
        return files->name;
    pe_c_range name = PE_C_EMPTY;
    uint32_t result = pe_c_pdb_file_name(BYTES, &files->files, files->names, files->length, file, &name);
    Py_CLEAR(files->name);
    if (!pays(rows->budget, result == PE_C_DONE ? name.length : result == PE_C_PDB_NAME ? files->length : 0))
        return NULL;
    const char *text = (const char *)files->names + name.offset;
    files->name = OPTIONAL(result == PE_C_DONE, PyUnicode_DecodeUTF8(text, (Py_ssize_t)name.length, "backslashreplace"));
    files->last = file;
    return files->name;
}

/* The row of a line. */
static PyObject *line_row(Image *self, Rows *rows, Files *files, const pe_c_pdb_line *line)
{
    PyObject *name = file_name(self, rows, files, line->file);
    return name ? row_pdb_line(self, rows, line, name) : NULL;
}

static Files files_of(unsigned long long offset, unsigned long long length, PyObject *names)
{
    return (Files){{offset, length}, (const uint8_t *)PyBytes_AsString(names), (size_t)PyBytes_Size(names), 0, NULL};
}

/* pdb_lines(index, offset, length, names) lists the lines of such an index, with their files. */
static PyObject *pdb_lines(Image *self, PyObject *arguments)
{
    PyObject *index, *names;
    unsigned long long offset, length;
    if (!PyArg_ParseTuple(arguments, "SKKS", &index, &offset, &length, &names))
        return NULL;
    OPEN_OWN
    Files files = files_of(offset, length, names);
    const pe_c_pdb_line_entry *entries = (const pe_c_pdb_line_entry *)PyBytes_AsString(index);
    size_t count = (size_t)PyBytes_Size(index) / sizeof *entries;
    budget.bytes += 4 * (uint64_t)files.length;
    rows = rows_of(self, &budget);
    for (size_t i = 0; i < count && goes_on(&rows); i++)
        append(&rows, line_row(self, &rows, &files, &entries[i].line));
    Py_XDECREF(files.name);
    return finished(&rows);
}

/* pdb_find_line(index, offset, length, names, rva) finds the line of an RVA, or None. */
static PyObject *pdb_find_line(Image *self, PyObject *arguments)
{
    PyObject *index, *names;
    unsigned long long offset, length;
    unsigned int rva;
    if (!PyArg_ParseTuple(arguments, "SKKSI", &index, &offset, &length, &names, &rva))
        return NULL;
    OPEN_OWN
    Files files = files_of(offset, length, names);
    pe_c_pdb_line item = PE_C_EMPTY;
    budget.bytes += 4 * (uint64_t)files.length;
    rows.result = pe_c_find_pdb_line(ALL_OF(pe_c_pdb_line_entry, index), rva, &item);
    PyObject *found = rows.result == PE_C_DONE ? line_row(self, &rows, &files, &item) : NULL;
    Py_XDECREF(files.name);
    return answer(found, &rows);
}

/* ---- inlined functions, of the stream of a module. `ids` are the bytes of the stream of ids, and `starts` what pdb_ids returned */

/* pdb_ids() returns where the records of the stream of ids start: the numbers of pe_c_pdb_ids, in bytes. */
METHOD(pdb_ids)
{
    PyObject *found = NULL;
    OPEN_OWN
    TO_ROOM(uint64_t, pe_c_pdb_ids(BYTES, room, most, &count));
    return answer(found, &rows);
}

/* How many inlined functions an RVA has at most. */
enum { MOST_INLINED = 64 };

/* The name of an inlined function, with the namespace that it is in: empty where nothing names it. */
static PyObject *inlined_name(const pe_c_pdb_inlined *it, PyObject *ids)
{
    const char *bytes = PyBytes_AsString(ids);
    if (it->name_result != PE_C_DONE)
        return PyUnicode_FromString("");
    PyObject *name = PyUnicode_DecodeUTF8(bytes + it->name.offset, (Py_ssize_t)it->name.length, "backslashreplace");
    if (!name || !it->scope.length)
        return name;
    PyObject *scope = PyUnicode_DecodeUTF8(bytes + it->scope.offset, (Py_ssize_t)it->scope.length, "backslashreplace");
    PyObject *whole = scope ? PyUnicode_FromFormat("%U::%U", scope, name) : NULL;
    Py_XDECREF(scope);
    Py_DECREF(name);
    return whole;
}

/* An inlined function: its name, file and line, and why its name and its line are refused. Where the budget is over it has no file. */
static PyObject *inlined_row(Image *self, Rows *rows, Files *files, const pe_c_pdb_inlined *it, PyObject *ids)
{
    int has_line = it->line_result == PE_C_DONE;
    PyObject *file = has_line ? file_name(self, rows, files, it->file) : NULL;
    PyObject *name = PyErr_Occurred() ? NULL : inlined_name(it, ids);
    PyObject *line = name ? OPTIONAL(has_line, N(it->line)) : NULL;
    if (!line) {
        Py_XDECREF(name);
        return NULL;
    }
    return Py_BuildValue("(NONII)", name, file ? file : Py_None, line, it->name_result == PE_C_NOTHING ? PE_C_DONE : it->name_result,
                         it->line_result == PE_C_NOTHING ? PE_C_DONE : it->line_result);
}

/* pdb_inlined(sections, index, module, rva, ids, starts, files, names) lists the functions that are inlined at an RVA of a procedure of
 * such an index, the innermost first. `module` has the ranges of its symbols and lines, and `files` that of its source files. */
static PyObject *pdb_inlined(Image *self, PyObject *arguments)
{
    PyObject *sections, *index, *ids, *starts, *names;
    unsigned int rva;
    unsigned long long of[4], at, length;
    if (!PyArg_ParseTuple(arguments, "SS(KKKK)ISS(KK)S", &sections, &index, &of[0], &of[1], &of[2], &of[3], &rva, &ids, &starts, &at,
                          &length, &names))
        return NULL;
    OPEN_OWN
    Files files = files_of(at, length, names);
    pe_c_pdb_module module = {.symbols = {of[0], of[1]}, .lines = {of[2], of[3]}};
    pe_c_pdb_symbol procedure = PE_C_EMPTY;
    pe_c_pdb_inlined room[MOST_INLINED];
    uint64_t count = 0;
    budget.bytes += 4 * (uint64_t)files.length;
    rows = rows_of(self, &budget);
    rows.result = pe_c_find_pdb_symbol(PE_C_PDB_PROCEDURES, BYTES, ALL_OF(uint8_t, sections), ALL_OF(uint64_t, index), rva, &procedure);
    if (rows.result == PE_C_DONE)
        rows.result = pe_c_find_pdb_inlined(BYTES, &module, &procedure, rva, ALL_OF(uint8_t, ids), ALL_OF(uint64_t, starts), room,
                                            MOST_INLINED, &count);
    for (uint64_t i = 0; rows.result == PE_C_DONE && rows.list && i < count; i++)
        append(&rows, inlined_row(self, &rows, &files, &room[i], ids));
    Py_XDECREF(files.name);
    return finished(&rows);
}
