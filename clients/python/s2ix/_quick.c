/* Asks the single questions of an index, `at`, `meet`, `labels` and `count`, without ctypes, which takes most of such a call's time.

   An Asker has an index's handle, and the addresses of the library's calls. It answers what is asked in plain ints, tokens, and lists or
   tuples of these. Otherwise, and if the library refuses, it answers None: then index.py asks by ctypes, which raises what is wrong. Python's
   lock is kept throughout, as by ctypes, so no other call runs on the handle meanwhile. */
#define Py_LIMITED_API 0x03090000
#include <Python.h>
#include <stdbool.h>

#include "s2ix.h"

/* How many bytes an Asker's room has at first, and how many cells need no memory of their own. */
enum { FIRST = 4096, FEW = 64 };

/* Cells that are asked for. */
typedef struct {
    uint64_t *words;
    size_t many;
} Cells;

/* Memory for what is found: the library wants it initialised. */
typedef struct {
    void *items;
    size_t size;
} Room;

typedef struct {
    PyObject_HEAD
    PyObject *kept; /* has the handle in it */
    s2ix_handle *handle;
    PyTypeObject *row; /* a class of tuples */
    __typeof__(s2ix_at) *at;
    __typeof__(s2ix_meet) *meet;
    __typeof__(s2ix_labels) *labels;
    __typeof__(s2ix_count) *count;
    Room room; /* none while a call uses it */
} Asker;

/* What makes tuples. */
static newfunc new_tuple;

/* What is asked for: the library's call, and what makes an item of one that is found. */
typedef struct {
    uint32_t (*ask)(const Asker *self, const Cells *cells, Room room, size_t *many);
    PyObject *(*item)(const Asker *self, const void *items, size_t place);
    size_t size;
} Question;

/* What is given. */

/* The number that a token spells, as cell_of in tokens.py reads it. */
static bool spelled(PyObject *token, uint64_t *word)
{
    Py_ssize_t len = PyUnicode_GetLength(token);
    if (len < 1 || len > 16)
        return false;
    *word = 0;
    for (Py_ssize_t place = 0; place < len; place++) {
        Py_UCS4 sign = PyUnicode_ReadChar(token, place), digit = sign - '0', letter = (sign | 32) - 'a';
        if (digit > 9 && letter > 5)
            return false;
        *word = *word << 4 | (digit > 9 ? letter + 10 : digit);
    }
    *word <<= 4 * (16 - len);
    return true;
}

/* The word of a plain cell. It runs no Python code, unless it answers false. */
static bool word_of(PyObject *cell, uint64_t *word)
{
    bool is_plain = false;
    if (PyLong_CheckExact(cell)) {
        *word = PyLong_AsUnsignedLongLong(cell);
        is_plain = *word != UINT64_MAX || !PyErr_Occurred();
    } else if (PyUnicode_CheckExact(cell)) {
        is_plain = spelled(cell, word);
    }
    if (!is_plain)
        PyErr_Clear();
    return is_plain;
}

/* Reads plain cells, one or many, into a few words or into more, which `drop` frees. If it answers false, an exception is raised, or they
   aren't plain. */
static bool read_cells(PyObject *given, uint64_t *few, Cells *cells)
{
    bool is_list = PyList_CheckExact(given);
    cells->words = few;
    cells->many = 1;
    if (!is_list && !PyTuple_CheckExact(given))
        return word_of(given, few);
    cells->many = (size_t)(is_list ? PyList_Size(given) : PyTuple_Size(given));
    if (cells->many > FEW && (cells->words = PyMem_Calloc(cells->many, sizeof *few)) == NULL) {
        PyErr_NoMemory();
        return false;
    }
    for (size_t place = 0; place < cells->many; place++) {
        PyObject *cell = is_list ? PyList_GetItem(given, (Py_ssize_t)place) : PyTuple_GetItem(given, (Py_ssize_t)place);
        if (cell == NULL || !word_of(cell, &cells->words[place]))
            return false;
    }
    return true;
}

static void drop(const Cells *cells, const uint64_t *few)
{
    if (cells->words != few)
        PyMem_Free(cells->words);
}

/* None for what isn't plain, unless an exception is raised. */
static PyObject *not_plain(void)
{
    if (PyErr_Occurred())
        return NULL;
    Py_RETURN_NONE;
}

/* What is found. */

static uint32_t ask_at(const Asker *self, const Cells *cells, Room room, size_t *many)
{
    return self->at(self->handle, cells->words[0], room.items, room.size / sizeof(s2ix_row), many);
}

static uint32_t ask_meet(const Asker *self, const Cells *cells, Room room, size_t *many)
{
    return self->meet(self->handle, cells->words, cells->many, room.items, room.size / sizeof(s2ix_row), many);
}

static uint32_t ask_labels(const Asker *self, const Cells *cells, Room room, size_t *many)
{
    return self->labels(self->handle, cells->words, cells->many, room.items, room.size / sizeof(uint32_t), many);
}

static bool put(PyObject *tuple, Py_ssize_t place, PyObject *item)
{
    return item != NULL && PyTuple_SetItem(tuple, place, item) == 0;
}

static PyObject *row_of(const Asker *self, const void *items, size_t place)
{
    const s2ix_row *found = (const s2ix_row *)items + place;
    PyObject *fields = PyTuple_New(3), *given = NULL, *row = NULL;
    if (fields != NULL && put(fields, 0, PyLong_FromUnsignedLongLong(found->cell)) && put(fields, 1, PyLong_FromUnsignedLong(found->label)) &&
        put(fields, 2, PyLong_FromUnsignedLong(found->count)) && (given = PyTuple_Pack(1, fields)) != NULL)
        row = new_tuple(self->row, given, NULL);
    Py_XDECREF(fields);
    Py_XDECREF(given);
    return row;
}

static PyObject *label_of(const Asker *self, const void *items, size_t place)
{
    (void)self;
    return PyLong_FromUnsignedLong(((const uint32_t *)items)[place]);
}

static const Question AT = {ask_at, row_of, sizeof(s2ix_row)};
static const Question MEET = {ask_meet, row_of, sizeof(s2ix_row)};
static const Question LABELS = {ask_labels, label_of, sizeof(uint32_t)};

static PyObject *list_of(const Asker *self, const Question *question, const void *items, size_t many)
{
    PyObject *list = PyList_New((Py_ssize_t)many);
    for (size_t place = 0; list != NULL && place < many; place++) {
        PyObject *item = question->item(self, items, place);
        if (item == NULL || PyList_SetItem(list, (Py_ssize_t)place, item) < 0)
            Py_CLEAR(list);
    }
    return list;
}

static Room new_room(size_t size)
{
    void *items = PyMem_Calloc(size, 1);
    return (Room){items, items == NULL ? 0 : size};
}

/* Asks, and once more with enough room if it was too little. While the list is made, a finalizer may ask too, with a room of its own. */
static PyObject *answer(Asker *self, const Question *question, const Cells *cells)
{
    PyObject *list = NULL;
    uint32_t status = S2IX_NO_ROOM;
    size_t many = 0;
    Room room = self->room.items == NULL ? new_room(FIRST) : self->room;
    self->room = (Room){NULL, 0};
    while (room.items != NULL && (status = question->ask(self, cells, room, &many)) == S2IX_NO_ROOM) {
        size_t wanted = many * question->size, twice = 2 * room.size;
        PyMem_Free(room.items);
        room = new_room(wanted > twice ? wanted : twice);
    }
    if (room.items == NULL)
        return PyErr_NoMemory();
    if (status == S2IX_DONE)
        list = list_of(self, question, room.items, many);
    else
        Py_INCREF(list = Py_None);
    if (self->room.items == NULL)
        self->room = room;
    else
        PyMem_Free(room.items);
    return list;
}

/* The methods. */

static PyObject *at(Asker *self, PyObject *leaf)
{
    uint64_t word;
    Cells cells = {&word, 1};
    return word_of(leaf, &word) ? answer(self, &AT, &cells) : not_plain();
}

static PyObject *of_cells(Asker *self, const Question *question, PyObject *given)
{
    uint64_t few[FEW];
    Cells cells;
    PyObject *list = read_cells(given, few, &cells) ? answer(self, question, &cells) : not_plain();
    drop(&cells, few);
    return list;
}

/* The same for cells that lie at an address, which the caller keeps there. */
static PyObject *of_memory(Asker *self, const Question *question, PyObject *args)
{
    unsigned long long start;
    Py_ssize_t many;
    if (!PyArg_ParseTuple(args, "Kn", &start, &many))
        return NULL;
    Cells cells = {(uint64_t *)(uintptr_t)start, (size_t)many};
    return answer(self, question, &cells);
}

static PyObject *meet(Asker *self, PyObject *cells)
{
    return of_cells(self, &MEET, cells);
}

static PyObject *meet_in(Asker *self, PyObject *args)
{
    return of_memory(self, &MEET, args);
}

static PyObject *labels(Asker *self, PyObject *cells)
{
    return of_cells(self, &LABELS, cells);
}

static PyObject *labels_in(Asker *self, PyObject *args)
{
    return of_memory(self, &LABELS, args);
}

static PyObject *count(Asker *self, PyObject *args)
{
    PyObject *cell, *label;
    uint64_t word, number;
    uint32_t copies = 0;
    if (!PyArg_UnpackTuple(args, "count", 2, 2, &cell, &label))
        return NULL;
    if (!word_of(cell, &word) || !PyLong_CheckExact(label) || !word_of(label, &number) || number > UINT32_MAX)
        return not_plain();
    if (self->count(self->handle, word, (uint32_t)number, &copies) != S2IX_DONE)
        Py_RETURN_NONE;
    return PyLong_FromUnsignedLong(copies);
}

static PyMethodDef METHODS[] = {
    {"at", (PyCFunction)at, METH_O, "The rows over a leaf."},
    {"meet", (PyCFunction)meet, METH_O, "The rows that meet cells."},
    {"meet_in", (PyCFunction)meet_in, METH_VARARGS, "The same for cells that lie at an address, so many of them."},
    {"labels", (PyCFunction)labels, METH_O, "The labels of the rows that meet cells."},
    {"labels_in", (PyCFunction)labels_in, METH_VARARGS, "The same for cells that lie at an address, so many of them."},
    {"count", (PyCFunction)count, METH_VARARGS, "How many copies of a cell are held under a label."},
    {NULL, NULL, 0, NULL},
};

static PyObject *new_asker(PyTypeObject *type, PyObject *args, PyObject *named)
{
    PyObject *kept;
    PyTypeObject *row;
    unsigned long long handle, at_call, meet_call, labels_call, count_call;
    Asker *self;
    (void)named;
    if (!PyArg_ParseTuple(args, "OKO!KKKK:Asker", &kept, &handle, &PyType_Type, &row, &at_call, &meet_call, &labels_call, &count_call))
        return NULL;
    if (!PyType_IsSubtype(row, &PyTuple_Type)) {
        PyErr_SetString(PyExc_TypeError, "rows are tuples");
        return NULL;
    }
    if ((self = (Asker *)PyType_GenericAlloc(type, 0)) == NULL)
        return NULL;
    Py_INCREF(self->kept = kept);
    Py_INCREF(self->row = row);
    self->handle = (s2ix_handle *)(uintptr_t)handle;
    self->at = (__typeof__(s2ix_at) *)(uintptr_t)at_call;
    self->meet = (__typeof__(s2ix_meet) *)(uintptr_t)meet_call;
    self->labels = (__typeof__(s2ix_labels) *)(uintptr_t)labels_call;
    self->count = (__typeof__(s2ix_count) *)(uintptr_t)count_call;
    return (PyObject *)self;
}

static void free_asker(Asker *self)
{
    PyTypeObject *type = Py_TYPE(self);
    PyMem_Free(self->room.items);
    Py_DECREF(self->kept);
    Py_DECREF(self->row);
    PyObject_Free(self);
    Py_DECREF(type);
}

static PyType_Slot SLOTS[] = {
    {Py_tp_doc, "Asker(kept, handle, row, at, meet, labels, count): what keeps a handle, its address, the class of rows, and addresses of calls."},
    {Py_tp_new, new_asker},
    {Py_tp_dealloc, free_asker},
    {Py_tp_methods, METHODS},
    {0, NULL},
};

static PyType_Spec ASKER = {"s2ix._quick.Asker", sizeof(Asker), 0, Py_TPFLAGS_DEFAULT, SLOTS};

/* The module. */

/* Finds what makes tuples. In Python 3.9 only a class that is made here tells it. */
static bool find_new_tuple(void)
{
    PyType_Slot none[] = {{0, NULL}};
    PyType_Spec spec = {"s2ix._quick.Tuple", 0, 0, Py_TPFLAGS_DEFAULT, none};
    PyObject *bases = PyTuple_Pack(1, (PyObject *)&PyTuple_Type);
    PyObject *made = bases == NULL ? NULL : PyType_FromSpecWithBases(&spec, bases);
    new_tuple = made == NULL ? NULL : (newfunc)PyType_GetSlot((PyTypeObject *)made, Py_tp_new);
    Py_XDECREF(bases);
    Py_XDECREF(made);
    return new_tuple != NULL;
}

static int fill(PyObject *module)
{
    PyObject *asker = find_new_tuple() ? PyType_FromSpec(&ASKER) : NULL;
    if (asker == NULL)
        return -1;
    if (PyModule_AddObject(module, "Asker", asker) < 0) {
        Py_DECREF(asker);
        return -1;
    }
    return 0;
}

static PyModuleDef_Slot FILLED[] = {{Py_mod_exec, fill}, {0, NULL}};

static PyModuleDef MODULE = {
    PyModuleDef_HEAD_INIT, .m_name = "s2ix._quick", .m_doc = "The single questions of an index, without ctypes.", .m_slots = FILLED,
};

PyMODINIT_FUNC PyInit__quick(void)
{
    return PyModuleDef_Init(&MODULE);
}
