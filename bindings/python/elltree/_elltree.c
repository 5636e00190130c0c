/* The library for Python: what _functions.py has, by the same names, without the price of ctypes. A HandleCore is what the library keeps of a
   handle, and a MapCore what it keeps of a map; the classes Handle and Map of the package have one each. It keeps to the stable ABI of Python 3.10,
   so that one file serves that version and all later ones. All of this is tested and not proved; what it calls of the library is, but for the map.

   The GIL. All calls let other threads of Python run meanwhile, but for those that only read a tree by a handle.

   Whoever waits at a map's barrier waits for a thread that renews, and that one waits for the calls that are under way. None of them needs the GIL
   before it is done with the map: the map calls nothing of Python, and while a function of Python runs, no call is under way on a map for it.
   (Map.modify makes two calls, and its function runs between them.) So there would be no deadlock if a thread kept the GIL while it waits. But a
   renewal takes milliseconds, and all of Python would stand still meanwhile, also threads that have nothing to do with the map. A call can't know
   beforehand whether it will wait. So all calls on a map let go of the GIL, which takes them less than a tenth of a microsecond, and up to one where
   other threads want it.

   A call on a handle waits for nobody. To let go of the GIL takes half as long as a find, and several times as long where other threads want it. So
   calls that read one key or number keep it. A search for the next key may take long nevertheless, if keys go before it: if the last call on a handle
   made more than STEPS_MOST steps, the next one lets others run. A change takes longer, and may have to be tried again, so it lets go of the GIL:
   threads that do nothing but change keys then go on side by side, where each would else have the processor for the 5 milliseconds after which Python
   has threads take turns. */
#define PY_SSIZE_T_CLEAN
#define Py_LIMITED_API 0x030a0000
#include <Python.h>
#include "elltree.h"
#include "elltree_map.h"
#include <string.h>

/* So many steps take about as long as the GIL does to change hands. */
#define STEPS_MOST 2000

/* The most numbers that a call takes. */
#define NUMBERS_MOST 4

/* What the library keeps of a map, or of a handle. */
struct core {
    PyObject_HEAD
    struct elltree_map *map; /* null if it is of a handle */
    struct elltree_handle handle;
    uint64_t steps; /* which the handle had made after its last call */
    bool is_slow;   /* whether that took many */
};

static struct core *core_of(PyObject *core) { return (struct core *)core; }

/* The attribute of an object. Its name is interned, since Python keeps many a name of an attribute that is not. */
static PyObject *attribute_of(PyObject *object, const char *name) {
    PyObject *interned = PyUnicode_InternFromString(name), *attribute = interned ? PyObject_GetAttr(object, interned) : NULL;
    Py_XDECREF(interned);
    return attribute;
}

/* What programs give to calls. */

/* A number by its letter in the list of _arguments.py: how many bits it has, and what it is called. */
struct number_kind {
    char letter;
    int bits;
    const char *name;
};
static const struct number_kind number_kinds[] = {
    {'k', 64, "a key"},
    {'v', 64, "a value"},
    {'E', 64, "a value"},
    {'a', 64, "an addend"},
    {'c', 64, "the number of cards"},
    {'t', 32, "the number of tries"},
    {'h', 32, "the number of handles"},
    {'n', 64, "the number of items"},
};

/* The kind of number that a program gives for a letter, or null if it gives none. */
static const struct number_kind *kind_of(char letter) {
    for (size_t i = 0; i < sizeof number_kinds / sizeof *number_kinds; i++)
        if (number_kinds[i].letter == letter)
            return &number_kinds[i];
    return NULL;
}

/* Raises what is wrong with an object that stands for no number, in place of the exception that is set. */
static void raise_no_number(PyObject *given, const char *name) {
    PyObject *type;
    PyErr_Clear(); /* no attribute is asked for while one is set */
    type = attribute_of((PyObject *)Py_TYPE(given), "__name__");
    if (type)
        PyErr_Format(PyExc_TypeError, "%s has to be an int, not %S", name, type);
    Py_XDECREF(type);
}

/* Writes the number that an object stands for, or raises what is wrong with it. */
static bool as_number(PyObject *given, const struct number_kind *kind, uint64_t *number) {
    PyObject *whole = PyNumber_Index(given);
    if (!whole) {
        if (PyErr_ExceptionMatches(PyExc_TypeError))
            raise_no_number(given, kind->name);
        return false;
    }
    *number = PyLong_AsUnsignedLongLong(whole);
    Py_DECREF(whole);
    if (*number == UINT64_MAX && PyErr_Occurred())
        PyErr_Clear();
    else if (kind->bits == 64 || *number <= UINT32_MAX)
        return true;
    PyErr_Format(PyExc_OverflowError, "%s has to be 0 to 2**%d - 1", kind->name, kind->bits);
    return false;
}

/* Writes the numbers that arguments stand for, one for each letter of a number in the signature of a call. */
static bool as_numbers(PyObject *const *given, Py_ssize_t count, const char *takes, uint64_t *numbers) {
    Py_ssize_t wanted = 0;
    for (const char *letter = takes + 1; *letter; letter++) {
        const struct number_kind *kind = kind_of(*letter);
        if (kind && wanted++ < count && !as_number(given[wanted - 1], kind, &numbers[wanted - 1]))
            return false;
    }
    if (count == wanted)
        return true;
    PyErr_Format(PyExc_TypeError, "the call takes %zd arguments, not %zd", wanted, count);
    return false;
}

/* An array of so many pairs, also of none, that PyMem_Free ends. */
static struct elltree_pair *room_for(size_t count) {
    struct elltree_pair *room = count < SIZE_MAX / sizeof *room ? PyMem_Malloc((count + 1) * sizeof *room) : NULL;
    if (!room)
        PyErr_NoMemory();
    return room;
}

/* The pairs of a list of tuples, in an array that PyMem_Free ends. */
static struct elltree_pair *pairs_in(PyObject *list, size_t *count) {
    const Py_ssize_t items = PyList_Size(list);
    struct elltree_pair *pairs = items < 0 ? NULL : room_for((size_t)items);
    for (Py_ssize_t i = 0; pairs && i < items; i++) {
        PyObject *pair = PyList_GetItem(list, i), *key = pair ? PyTuple_GetItem(pair, 0) : NULL, *value = key ? PyTuple_GetItem(pair, 1) : NULL;
        if (!value || !as_number(key, kind_of('k'), &pairs[i].key) || !as_number(value, kind_of('v'), &pairs[i].value)) {
            PyMem_Free(pairs);
            pairs = NULL;
        }
    }
    *count = (size_t)items;
    return pairs;
}

/* What calls tell. */

/* Raises the exception of a code, by the function of _codes.py that the types got from _library.py. */
static PyObject *refuse(PyObject *core, int32_t code) {
    PyObject *answer = attribute_of(core, "answer"), *said = answer ? PyObject_CallFunction(answer, "i", (int)code) : NULL;
    Py_XDECREF(answer);
    Py_XDECREF(said);
    if (!PyErr_Occurred())
        PyErr_Format(PyExc_SystemError, "the code %d was not refused", (int)code);
    return NULL;
}

/* How many numbers a call tells by its signature. */
static int told_by(const char *takes) {
    int told = 0;
    for (; *takes; takes++)
        told += strchr("VNWE", *takes) != NULL;
    return told;
}

static PyObject *as_pair(uint64_t one, uint64_t other) {
    PyObject *first = PyLong_FromUnsignedLongLong(one), *second = PyLong_FromUnsignedLongLong(other);
    PyObject *pair = first && second ? PyTuple_Pack(2, first, second) : NULL;
    Py_XDECREF(first);
    Py_XDECREF(second);
    return pair;
}

/* The answer of a call: the numbers that it tells, or None where it says no, or whether it says yes, if it tells none. */
static PyObject *as_answer(PyObject *core, int32_t code, const char *takes, const uint64_t *told) {
    const int count = told_by(takes);
    if (code < 0)
        return refuse(core, code);
    if (strchr(takes, 'W'))
        return Py_BuildValue("(KN)", (unsigned long long)told[0], PyBool_FromLong(code == ELLTREE_YES));
    if (!count)
        return PyBool_FromLong(code == ELLTREE_YES);
    if (code == ELLTREE_NO)
        Py_RETURN_NONE;
    return count == 1 ? PyLong_FromUnsignedLongLong(told[0]) : as_pair(told[0], told[1]);
}

/* A list of so many pairs. */
static PyObject *as_list(const struct elltree_pair *pairs, size_t count) {
    PyObject *list = PyList_New((Py_ssize_t)count);
    for (size_t i = 0; list && i < count; i++) {
        PyObject *pair = as_pair(pairs[i].key, pairs[i].value);
        if (!pair || PyList_SetItem(list, (Py_ssize_t)i, pair))
            Py_CLEAR(list);
    }
    return list;
}

/* Calls that take and tell numbers. */

typedef int32_t work(struct core *core, const uint64_t *given, uint64_t *told);

/* Whether a call keeps the GIL: it tells something of a handle and changes nothing, as it has no tries, and the one before it was short. */
static bool keeps_gil(const struct core *core, const char *takes) { return !core->map && !core->is_slow && told_by(takes) && !strchr(takes, 't'); }

/* Notes whether a call on a handle took many steps. */
static void note_steps(struct core *core) {
    uint64_t steps;
    if (core->map || elltree_steps(&core->handle, &steps) != ELLTREE_YES)
        return;
    core->is_slow = steps - core->steps > STEPS_MOST;
    core->steps = steps;
}

static PyObject *call(PyObject *self, PyObject *const *given, Py_ssize_t count, const char *takes, work *work_on) {
    struct core *core = core_of(self);
    uint64_t numbers[NUMBERS_MOST] = {0}, told[2] = {0, 0};
    PyThreadState *thread;
    int32_t code;
    if (!as_numbers(given, count, takes, numbers))
        return NULL;
    told[0] = numbers[1]; /* a value that was found where it was expected need not be written */
    thread = keeps_gil(core, takes) ? NULL : PyEval_SaveThread();
    code = work_on(core, numbers, told);
    if (thread)
        PyEval_RestoreThread(thread);
    note_steps(core);
    return as_answer(self, code, takes, told);
}

/* What the methods of the types call, with their signatures as in the list of _arguments.py. */
/* clang-format off */
#define CALLS_ON_HANDLES(CALL) \
    CALL(handle, free, "S", elltree_free(&core->handle)) \
    CALL(handle, find, "SkV", elltree_find(&core->handle, given[0], told)) \
    CALL(handle, look, "SkV", elltree_look(&core->handle, given[0], told)) \
    CALL(handle, insert, "Skvt", elltree_insert(&core->handle, given[0], given[1], (uint32_t)given[2])) \
    CALL(handle, put, "SkvtV", elltree_put(&core->handle, given[0], given[1], (uint32_t)given[2], told)) \
    CALL(handle, delete, "Skt", elltree_delete(&core->handle, given[0], (uint32_t)given[1])) \
    CALL(handle, take, "SktV", elltree_take(&core->handle, given[0], (uint32_t)given[1], told)) \
    CALL(handle, compare_exchange, "SkvvtV", elltree_compare_exchange(&core->handle, given[0], told, given[2], (uint32_t)given[3])) \
    CALL(handle, remove_if, "SkvtV", elltree_remove_if(&core->handle, given[0], told, (uint32_t)given[2])) \
    CALL(handle, fetch_add, "SkatV", elltree_fetch_add(&core->handle, given[0], given[1], (uint32_t)given[2], told)) \
    CALL(handle, next_at_least, "SkVV", elltree_next_at_least(&core->handle, given[0], &told[0], &told[1])) \
    CALL(handle, last_at_most, "SkVV", elltree_last_at_most(&core->handle, given[0], &told[0], &told[1])) \
    CALL(handle, cards_left, "SV", elltree_cards_left(&core->handle, told)) \
    CALL(handle, steps, "SV", elltree_steps(&core->handle, told))
#define CALLS_ON_MAPS(CALL) \
    CALL(map, get, "MkV", elltree_map_get(core->map, given[0], told)) \
    CALL(map, insert, "Mkv", elltree_map_insert(core->map, given[0], given[1])) \
    CALL(map, put, "MkvV", elltree_map_put(core->map, given[0], given[1], told)) \
    CALL(map, get_or_insert, "MkvW", elltree_map_get_or_insert(core->map, given[0], given[1], told)) \
    CALL(map, remove, "MkV", elltree_map_remove(core->map, given[0], told)) \
    CALL(map, delete, "Mk", elltree_map_delete(core->map, given[0])) \
    CALL(map, remove_if, "MkvV", elltree_map_remove_if(core->map, given[0], given[1], told)) \
    CALL(map, compare_exchange, "MkEv", elltree_map_compare_exchange(core->map, given[0], told, given[2])) \
    CALL(map, fetch_add, "MkaV", elltree_map_fetch_add(core->map, given[0], given[1], told)) \
    CALL(map, pop_first, "MVV", elltree_map_pop_first(core->map, &told[0], &told[1])) \
    CALL(map, pop_last, "MVV", elltree_map_pop_last(core->map, &told[0], &told[1])) \
    CALL(map, next_at_least, "MkVV", elltree_map_next_at_least(core->map, given[0], &told[0], &told[1])) \
    CALL(map, last_at_most, "MkVV", elltree_map_last_at_most(core->map, given[0], &told[0], &told[1])) \
    CALL(map, len, "MN", elltree_map_len(core->map, told)) \
    CALL(map, renew, "M", elltree_map_renew(core->map))
#define DEFINED(kind, name, takes, made) \
    static int32_t work_of_##kind##_##name(struct core *core, const uint64_t *given, uint64_t *told) { \
        (void)given, (void)told; \
        return made; \
    } \
    static PyObject *kind##_##name(PyObject *core, PyObject *const *given, Py_ssize_t count) { \
        return call(core, given, count, takes, work_of_##kind##_##name); \
    }
#define LISTED(kind, name, takes, made) {#name, FAST(kind##_##name), METH_FASTCALL, takes},
#define FAST(function) (PyCFunction)(void (*)(void))function /* which gets its arguments in an array */
CALLS_ON_HANDLES(DEFINED)
CALLS_ON_MAPS(DEFINED)
/* clang-format on */

/* Other calls. */

/* A list of a range's pairs, and where to go on. */
static PyObject *core_range(PyObject *self, PyObject *const *given, Py_ssize_t count) {
    struct core *core = core_of(self);
    struct elltree_pair *pairs;
    PyObject *list;
    uint64_t numbers[NUMBERS_MOST], next = 0;
    size_t told = 0;
    int32_t code;
    if (!as_numbers(given, count, "SkkPnNV", numbers) || !(pairs = room_for(numbers[2])))
        return NULL;
    Py_BEGIN_ALLOW_THREADS
    code = core->map ? elltree_map_range(core->map, numbers[0], numbers[1], pairs, numbers[2], &told, &next)
                     : elltree_range(&core->handle, numbers[0], numbers[1], pairs, numbers[2], &told, &next);
    Py_END_ALLOW_THREADS
    list = code < 0 ? refuse(self, code) : as_list(pairs, told);
    PyMem_Free(pairs);
    return list ? Py_BuildValue("(NK)", list, (unsigned long long)next) : NULL;
}

static PyObject *handle_new(PyTypeObject *type, PyObject *given, PyObject *named) {
    struct elltree_pair *start;
    PyObject *list, *cards, *handles, *core = NULL;
    uint64_t number, most = 0;
    size_t count;
    int32_t code;
    bool comes_back;
    if (named || !PyArg_ParseTuple(given, "OOO", &list, &cards, &handles) || !(start = pairs_in(list, &count)))
        return NULL;
    comes_back = handles != Py_None;
    if (as_number(cards, kind_of('c'), &number) && (!comes_back || as_number(handles, kind_of('h'), &most)) &&
        (core = PyType_GenericAlloc(type, 0))) {
        struct elltree_handle *handle = &core_of(core)->handle;
        Py_BEGIN_ALLOW_THREADS
        code = comes_back ? elltree_open_reusing(handle, start, count, number, (uint32_t)most) : elltree_open(handle, start, count, number);
        Py_END_ALLOW_THREADS
        if (code < 0) {
            refuse(core, code);
            Py_CLEAR(core);
        }
    }
    PyMem_Free(start);
    return core;
}

/* The core of another handle of the tree. */
static PyObject *handle_another(PyObject *self, PyObject *none) {
    PyObject *other = PyType_GenericAlloc(Py_TYPE(self), 0);
    int32_t code;
    (void)none;
    if (!other)
        return NULL;
    Py_BEGIN_ALLOW_THREADS
    code = elltree_another(&core_of(self)->handle, &core_of(other)->handle);
    Py_END_ALLOW_THREADS
    if (code < 0) {
        refuse(self, code);
        Py_CLEAR(other);
    }
    return other;
}

static PyObject *map_new(PyTypeObject *type, PyObject *given, PyObject *named) {
    struct elltree_map_settings settings = ELLTREE_MAP_SETTINGS;
    struct elltree_map *map = NULL;
    struct elltree_pair *pairs;
    PyObject *list, *core;
    unsigned long long cards;
    size_t count;
    int32_t code;
    if (named || !PyArg_ParseTuple(given, "OKIII", &list, &cards, &settings.renewal_percent, &settings.renewal_microseconds, &settings.calls) ||
        !(pairs = pairs_in(list, &count)))
        return NULL;
    settings.cards = cards;
    core = PyType_GenericAlloc(type, 0);
    if (core) {
        Py_BEGIN_ALLOW_THREADS
        code = elltree_map_from_sorted(&map, pairs, count, &settings, sizeof settings);
        Py_END_ALLOW_THREADS
        core_of(core)->map = map;
        if (code < 0) {
            refuse(core, code);
            Py_CLEAR(core);
        }
    }
    PyMem_Free(pairs);
    return core;
}

/* Writes all pairs into an array of which the caller guesses how long it has to be, and that PyMem_Free ends. */
static int32_t list_pairs(struct elltree_map *map, struct elltree_pair **pairs, size_t *count) {
    size_t room;
    int32_t code;
    do {
        room = *count + *count / 8; /* others may add some before the moment comes */
        PyMem_Free(*pairs);
        *pairs = room_for(room);
        if (!*pairs)
            return ELLTREE_NO;
        Py_BEGIN_ALLOW_THREADS
        code = elltree_map_pairs(map, *pairs, room, count);
        Py_END_ALLOW_THREADS
    } while (code == ELLTREE_NO_ROOM);
    return code;
}

static PyObject *map_pairs(PyObject *core, PyObject *none) {
    struct elltree_pair *pairs = NULL;
    PyObject *list;
    size_t count = 0;
    int32_t code = elltree_map_len(core_of(core)->map, &count);
    (void)none;
    if (code >= 0)
        code = list_pairs(core_of(core)->map, &pairs, &count);
    if (code < 0)
        list = refuse(core, code);
    else
        list = pairs ? as_list(pairs, count) : NULL;
    PyMem_Free(pairs);
    return list;
}

static PyObject *map_counts(PyObject *core, PyObject *none) {
    struct elltree_map_counters counts;
    int32_t code;
    (void)none;
    Py_BEGIN_ALLOW_THREADS
    code = elltree_map_counts(core_of(core)->map, &counts, sizeof counts);
    Py_END_ALLOW_THREADS
    if (code < 0)
        return refuse(core, code);
    return Py_BuildValue("{sKsKsKsKsKsKsK}", "sections", (unsigned long long)counts.sections, "cards", (unsigned long long)counts.cards, "renewals",
                         (unsigned long long)counts.renewals, "early_renewals", (unsigned long long)counts.early_renewals, "renewal_nanoseconds",
                         (unsigned long long)counts.renewal_nanoseconds, "pause_nanoseconds", (unsigned long long)counts.pause_nanoseconds,
                         "longest_nanoseconds", (unsigned long long)counts.longest_nanoseconds);
}

/* Whoever is in a call has the object too, so that no call is under way. */
static void core_dealloc(PyObject *core) {
    PyTypeObject *type = Py_TYPE(core);
    const freefunc free_object = (freefunc)PyType_GetSlot(type, Py_tp_free);
    Py_BEGIN_ALLOW_THREADS
    if (core_of(core)->map)
        elltree_map_free(core_of(core)->map); /* which leaves a map of the parent alone in a forked child */
    else
        elltree_free(&core_of(core)->handle);
    Py_END_ALLOW_THREADS
    free_object(core);
    Py_DECREF(type);
}

/* The types and the module. */

/* What a code says. */
static PyObject *code_text(PyObject *module, PyObject *given) {
    char text[ELLTREE_TEXT_ROOM];
    const long code = PyLong_AsLong(given);
    (void)module;
    return code == -1 && PyErr_Occurred() ? NULL : PyUnicode_FromString(elltree_text((int32_t)code, text, sizeof text));
}

static PyMethodDef handle_methods[] = {
    CALLS_ON_HANDLES(LISTED){"another", handle_another, METH_NOARGS, NULL},
    {"range", FAST(core_range), METH_FASTCALL, "SkkPnNV"},
    {NULL, NULL, 0, NULL},
};
static PyMethodDef map_methods[] = {
    CALLS_ON_MAPS(LISTED){"range", FAST(core_range), METH_FASTCALL, "MkkPnNV"},
    {"pairs", map_pairs, METH_NOARGS, NULL},
    {"counts", map_counts, METH_NOARGS, NULL},
    {NULL, NULL, 0, NULL},
};
static PyMethodDef module_functions[] = {{"code_text", code_text, METH_O, NULL}, {NULL, NULL, 0, NULL}};

static PyType_Slot handle_slots[] = {{Py_tp_new, handle_new}, {Py_tp_dealloc, core_dealloc}, {Py_tp_methods, handle_methods}, {0, NULL}};
static PyType_Slot map_slots[] = {{Py_tp_new, map_new}, {Py_tp_dealloc, core_dealloc}, {Py_tp_methods, map_methods}, {0, NULL}};
static PyType_Spec core_types[] = {
    {"elltree._elltree.HandleCore", sizeof(struct core), 0, Py_TPFLAGS_DEFAULT, handle_slots},
    {"elltree._elltree.MapCore", sizeof(struct core), 0, Py_TPFLAGS_DEFAULT, map_slots},
};

static int start_module(PyObject *module) {
    for (int i = 0; i < 2; i++) {
        PyObject *type = PyType_FromModuleAndSpec(module, &core_types[i], NULL);
        const int failed = !type || PyModule_AddType(module, (PyTypeObject *)type);
        Py_XDECREF(type);
        if (failed)
            return -1;
    }
    return 0;
}

static PyModuleDef_Slot module_slots[] = {{Py_mod_exec, start_module}, {0, NULL}};
static struct PyModuleDef module_definition = {
    PyModuleDef_HEAD_INIT, "_elltree", NULL, 0, module_functions, module_slots, NULL, NULL, NULL,
};

PyMODINIT_FUNC PyInit__elltree(void);
PyMODINIT_FUNC PyInit__elltree(void) { return PyModuleDef_Init(&module_definition); }
