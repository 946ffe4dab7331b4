/*
 * Calls of libsyslogbox for Python, in place of those that the package makes by ctypes.
 *
 * `bound` makes a function in C of one in Python, with its name, its text and its module. If the arguments are of the
 * very types that it is documented for, it does what that one does. It leaves anything else to that one, so that one
 * place says what is refused, and how. Python decides which library is called: `set_up` takes the addresses of its
 * calls.
 *
 * It needs nothing but the stable interface of Python 3.10, so one file is for that version and all later ones.
 */
#define PY_SSIZE_T_CLEAN
#define Py_LIMITED_API 0x030A0000
#include <Python.h>

#include <string.h>
#include <syslogbox.h>

enum {
    ROOM = 4096,  /* octets on the stack, for what a call writes */
    SPANS = 40,   /* parts of a record, likewise */
    ITEMS = 32,   /* items of structured data, likewise */
    FRAMES = 64,  /* of a stream, found in one call */
    HEADER = 7    /* fields before the structured data */
};

/* The functions that there are in C; the numbers of a table below. */
enum function {
    CHECK, IS_RECORD, REFUSAL, CANONICAL, VIEW, BUILD, LEGACY, TRIMMED, FAULT_TEXT, SCAN, REFUSED, FUNCTIONS
};

/* What a record and an element have. */
enum attribute {
    FACILITY, SEVERITY, MICROS, HOSTNAME, APP_NAME, PROC_ID, MSG_ID, ELEMENTS, MESSAGE, BOM, ID, PARAMS, ATTRIBUTES
};
static const char *const attributes[ATTRIBUTES] = {"facility", "severity", "micros", "hostname", "app_name", "proc_id",
                                                   "msg_id", "elements", "message", "bom", "id", "params"};

#define CALLS(each)                                                                          \
    each(check) each(canonical) each(view) each(spans) each(value) each(build) each(packet)  \
        each(trimmed) each(fault_text) each(scan)
#define POINTER(name) __typeof__(syslogbox_##name) *name;

struct state {
    struct {
        CALLS(POINTER)
    } calls;
    PyObject *record_error, *field_error;      /* classes; NULL until set_up */
    PyObject *record, *element;                /* classes; NULL until set_up */
    PyObject *names[ATTRIBUTES];
    PyObject *fallbacks[FUNCTIONS];            /* the functions in Python */
    PyObject *texts[FUNCTIONS];                /* what their names and texts lie in */
    PyMethodDef definitions[FUNCTIONS];
    PyObject *nothing;                         /* an empty tuple */
    PyObject *former;                          /* a list of what was replaced, which a call may be using */
};

static struct state *state_of(PyObject *module)
{
    return PyModule_GetState(module);
}

/* ---- what is refused */

/* The function in Python, with the same arguments. */
static PyObject *in_python(PyObject *module, enum function which, PyObject *const *args, Py_ssize_t count,
                           PyObject *names)
{
    Py_ssize_t named = names ? PyTuple_Size(names) : 0;
    PyObject *answer = NULL, *words = PyTuple_New(count), *keywords = named ? PyDict_New() : NULL;

    if (!words || (named && !keywords))
        goto end;
    for (Py_ssize_t i = 0; i < count; i++)
        if (PyTuple_SetItem(words, i, Py_NewRef(args[i])))
            goto end;
    for (Py_ssize_t i = 0; i < named; i++)
        if (PyDict_SetItem(keywords, PyTuple_GetItem(names, i), args[count + i]))
            goto end;
    answer = PyObject_Call(state_of(module)->fallbacks[which], words, keywords);
end:
    Py_XDECREF(words);
    Py_XDECREF(keywords);
    return answer;
}

/* The exception of a fault; NULL with another one raised, if it cannot be made. */
static PyObject *exception(PyObject *error, const struct syslogbox_fault *fault)
{
    return PyObject_CallFunction(error, "IIK", (unsigned int)fault->kind, (unsigned int)fault->field,
                                 (unsigned long long)fault->offset);
}

/* Raises what a fault of the library is in Python. */
static PyObject *refuse(PyObject *error, const struct syslogbox_fault *fault)
{
    PyObject *made;

    if (fault->kind == SYSLOGBOX_NO_MEMORY) {
        PyErr_SetString(PyExc_MemoryError, "libsyslogbox is out of memory");
        return NULL;
    }
    if ((made = exception(error, fault))) {
        PyErr_SetObject(error, made);
        Py_DECREF(made);
    }
    return NULL;
}

/* ---- octets */

struct octets {
    const uint8_t *at;
    size_t len;
};

/* The octets of an object that is known to be bytes. */
static struct octets octets_of(PyObject *bytes)
{
    return (struct octets){(const uint8_t *)PyBytes_AsString(bytes), (size_t)PyBytes_Size(bytes)};
}

/* Whether there is one argument, bytes, and no name of any. */
static int is_octets(PyObject *const *args, Py_ssize_t count, PyObject *names)
{
    return count == 1 && !names && PyBytes_Check(args[0]);
}

/* Room for what a call writes: on the caller's stack if that is enough. NULL with MemoryError raised. */
static uint8_t *room_for(size_t room, uint8_t *on_stack)
{
    uint8_t *out = room <= ROOM ? on_stack : PyMem_Malloc(room);

    if (!out)
        PyErr_NoMemory();
    return out;
}

static void let_go(uint8_t *out, const uint8_t *on_stack)
{
    if (out != on_stack)
        PyMem_Free(out);
}

/* What a call has written, as bytes; or what it is refused with. */
static PyObject *written(PyObject *error, int64_t answer, const uint8_t *out, const struct syslogbox_fault *fault)
{
    return answer < 0 ? refuse(error, fault) : PyBytes_FromStringAndSize((const char *)out, (Py_ssize_t)answer);
}

/* ---- records */

static PyObject *check(PyObject *module, PyObject *const *args, Py_ssize_t count, PyObject *names)
{
    struct state *state = state_of(module);
    struct syslogbox_fault fault;
    struct octets record;

    if (!is_octets(args, count, names))
        return in_python(module, CHECK, args, count, names);
    record = octets_of(args[0]);
    if (!state->calls.check(record.at, record.len, &fault))
        return refuse(state->record_error, &fault);
    return Py_NewRef(Py_None);
}

static PyObject *is_record(PyObject *module, PyObject *const *args, Py_ssize_t count, PyObject *names)
{
    struct octets record;

    if (!is_octets(args, count, names))
        return in_python(module, IS_RECORD, args, count, names);
    record = octets_of(args[0]);
    return PyBool_FromLong(state_of(module)->calls.check(record.at, record.len, NULL));
}

static PyObject *refusal(PyObject *module, PyObject *const *args, Py_ssize_t count, PyObject *names)
{
    struct state *state = state_of(module);
    struct syslogbox_fault fault;
    struct octets record;

    if (!is_octets(args, count, names))
        return in_python(module, REFUSAL, args, count, names);
    record = octets_of(args[0]);
    if (state->calls.check(record.at, record.len, &fault))
        return in_python(module, REFUSAL, args, count, names);
    return exception(state->record_error, &fault);
}

static PyObject *canonical(PyObject *module, PyObject *const *args, Py_ssize_t count, PyObject *names)
{
    struct state *state = state_of(module);
    struct syslogbox_fault fault;
    struct octets record;
    uint8_t on_stack[ROOM], *out;
    size_t room;
    int64_t answer;
    PyObject *octets;

    if (!is_octets(args, count, names))
        return in_python(module, CANONICAL, args, count, names);
    record = octets_of(args[0]);
    room = 2 * record.len + 7;
    if (!(out = room_for(room, on_stack)))
        return NULL;
    answer = state->calls.canonical(record.at, record.len, out, room, &fault);
    octets = written(state->record_error, answer, out, &fault);
    let_go(out, on_stack);
    return octets;
}

static PyObject *trimmed(PyObject *module, PyObject *const *args, Py_ssize_t count, PyObject *names)
{
    struct octets frame;
    size_t left;

    if (count != 1 || names || !PyBytes_CheckExact(args[0]))
        return in_python(module, TRIMMED, args, count, names);
    frame = octets_of(args[0]);
    left = state_of(module)->calls.trimmed(frame.at, frame.len);
    return left == frame.len ? Py_NewRef(args[0]) : PyBytes_FromStringAndSize((const char *)frame.at, (Py_ssize_t)left);
}

/* ---- the parts of a record */

static PyObject *text_of(const uint8_t *at, size_t len)
{
    return PyUnicode_DecodeUTF8((const char *)at, (Py_ssize_t)len, NULL);
}

/* A word of the header, None if it is "-". */
static PyObject *word_of(const uint8_t *record, struct syslogbox_span span)
{
    return span.len ? text_of(record + span.offset, span.len) : Py_NewRef(Py_None);
}

/* What the spelling of a value means. */
static PyObject *meaning(struct state *state, const uint8_t *raw, size_t len)
{
    uint8_t on_stack[ROOM], *out;
    struct syslogbox_fault fault;
    PyObject *text;
    int64_t answer;

    if (!memchr(raw, '\\', len))
        return text_of(raw, len);
    if (!(out = room_for(len, on_stack)))
        return NULL;
    answer = state->calls.value(raw, len, out, len, &fault);
    text = answer < 0 ? refuse(state->record_error, &fault) : text_of(out, (size_t)answer);
    let_go(out, on_stack);
    return text;
}

/* A tuple of two, which takes over both; NULL if one of them is, or if there is no memory. */
static PyObject *pair(PyObject *first, PyObject *second)
{
    PyObject *both = first && second ? PyTuple_Pack(2, first, second) : NULL;

    Py_XDECREF(first);
    Py_XDECREF(second);
    return both;
}

/* An object of a class, without its __init__, which would set each attribute by a call in Python. */
static PyObject *object_of(struct state *state, PyObject *class)
{
    newfunc make = __extension__(newfunc) PyType_GetSlot((PyTypeObject *)class, Py_tp_new);

    return make((PyTypeObject *)class, state->nothing, NULL);
}

/* Sets an attribute of a new object, frozen or not, and takes the value over; -1 if that is NULL, or cannot be set. */
static int set(struct state *state, PyObject *object, enum attribute which, PyObject *value)
{
    int answer = value ? PyObject_GenericSetAttr(object, state->names[which], value) : -1;

    Py_XDECREF(value);
    return answer;
}

/* The parameters from a span on, up to the next id or the end: a tuple. */
static PyObject *params_of(struct state *state, const uint8_t *record, const struct syslogbox_part_span *spans,
                           size_t count)
{
    PyObject *params = PyTuple_New((Py_ssize_t)(count / 2));

    for (size_t i = 0; params && i + 1 < count; i += 2) {
        struct syslogbox_span name = spans[i].span, value = spans[i + 1].span;
        PyObject *first = text_of(record + name.offset, name.len);
        PyObject *both = pair(first, first ? meaning(state, record + value.offset, value.len) : NULL);

        if (!both || PyTuple_SetItem(params, (Py_ssize_t)(i / 2), both))
            Py_CLEAR(params);
    }
    return params;
}

/* An element: its id, and the parts behind it. */
static PyObject *element_of(struct state *state, const uint8_t *record, const struct syslogbox_part_span *spans,
                            size_t count)
{
    PyObject *element = object_of(state, state->element);

    if (element && (set(state, element, ID, text_of(record + spans->span.offset, spans->span.len)) ||
                    set(state, element, PARAMS, params_of(state, record, spans + 1, count - 1))))
        Py_CLEAR(element);
    return element;
}

/* Where the next element begins, or the end. */
static size_t next_id(const struct syslogbox_part_span *spans, size_t at, size_t count)
{
    do
        at++;
    while (at < count && spans[at].part != SYSLOGBOX_PART_ELEMENT_ID);
    return at;
}

/* The elements of the spans of the structured data: a tuple. */
static PyObject *elements_among(struct state *state, const uint8_t *record, const struct syslogbox_part_span *spans,
                                size_t count)
{
    Py_ssize_t elements = 0, n = 0;
    PyObject *all;

    for (size_t at = 0; at < count; at = next_id(spans, at, count))
        elements++;
    all = PyTuple_New(elements);
    for (size_t at = 0, end; all && at < count; at = end) {
        PyObject *element;

        end = next_id(spans, at, count);
        element = element_of(state, record, spans + at, end - at);
        if (!element || PyTuple_SetItem(all, n++, element))
            Py_CLEAR(all);
    }
    return all;
}

/* The elements of a record; `some` says whether it has any. */
static PyObject *elements_of(struct state *state, struct octets record, int some)
{
    struct syslogbox_part_span on_stack[SPANS], *spans = on_stack;
    struct syslogbox_fault fault;
    PyObject *all = NULL;
    int64_t count;

    if (!some)
        return Py_NewRef(state->nothing);
    count = state->calls.spans(record.at, record.len, spans, SPANS, &fault);
    if (count > SPANS) {
        size_t room = (size_t)count;

        if (!(spans = PyMem_Malloc(room * sizeof *spans)))
            return PyErr_NoMemory();
        count = state->calls.spans(record.at, record.len, spans, room, &fault);
    }
    if (count < 0)
        refuse(state->record_error, &fault);
    else
        all = elements_among(state, record.at, spans + HEADER, (size_t)count - HEADER - 1);
    if (spans != on_stack)
        PyMem_Free(spans);
    return all;
}

static PyObject *view(PyObject *module, PyObject *const *args, Py_ssize_t count, PyObject *names)
{
    struct state *state = state_of(module);
    struct syslogbox_parts parts;
    struct syslogbox_fault fault;
    struct octets octets;
    PyObject *record;

    if (!is_octets(args, count, names))
        return in_python(module, VIEW, args, count, names);
    octets = octets_of(args[0]);
    if (!state->calls.view(octets.at, octets.len, &parts, &fault))
        return refuse(state->record_error, &fault);
    if (!(record = object_of(state, state->record)))
        return NULL;
    if (set(state, record, FACILITY, PyLong_FromUnsignedLong(parts.facility)) ||
        set(state, record, SEVERITY, PyLong_FromUnsignedLong(parts.severity)) ||
        set(state, record, MICROS, parts.has_time ? PyLong_FromLongLong(parts.time) : Py_NewRef(Py_None)) ||
        set(state, record, HOSTNAME, word_of(octets.at, parts.hostname)) ||
        set(state, record, APP_NAME, word_of(octets.at, parts.app_name)) ||
        set(state, record, PROC_ID, word_of(octets.at, parts.proc_id)) ||
        set(state, record, MSG_ID, word_of(octets.at, parts.msg_id)) ||
        set(state, record, ELEMENTS, elements_of(state, octets, parts.elements > 0)) ||
        set(state, record, MESSAGE,
            PyBytes_FromStringAndSize((const char *)octets.at + parts.message.offset, (Py_ssize_t)parts.message.len)) ||
        set(state, record, BOM, PyBool_FromLong((long)parts.has_bom)))
        Py_CLEAR(record);
    return record;
}

/* ---- a record of its fields */

/* What a record is built of. Text and items lie in the objects that are held. */
struct building {
    struct syslogbox_fields fields;
    struct syslogbox_item on_stack[ITEMS], *items;
    PyObject *held; /* a list */
    size_t octets;
};

/* An attribute, which is held; NULL with an exception raised. */
static PyObject *held(struct state *state, struct building *building, PyObject *object, enum attribute which)
{
    PyObject *value = PyObject_GetAttr(object, state->names[which]);

    if (value && PyList_Append(building->held, value))
        Py_CLEAR(value);
    Py_XDECREF(value); /* the list holds it */
    return value;
}

/* The UTF-8 of a string; 0 if it is none, or has no UTF-8, with nothing raised. */
static int lend(struct building *building, PyObject *string, struct syslogbox_text *text)
{
    Py_ssize_t len = 0;
    const char *at = PyUnicode_CheckExact(string) ? PyUnicode_AsUTF8AndSize(string, &len) : NULL;

    if (!at) {
        PyErr_Clear();
        return 0;
    }
    *text = (struct syslogbox_text){(const uint8_t *)at, (size_t)len};
    building->octets += (size_t)len;
    return 1;
}

/* A whole number from `least` to `most`; 0 if the object is none, with nothing raised. */
static int whole(PyObject *object, long long least, long long most, long long *number)
{
    int overflow = 0;

    if (!object || !PyLong_CheckExact(object))
        return 0;
    *number = PyLong_AsLongLongAndOverflow(object, &overflow);
    return !overflow && *number >= least && *number <= most;
}

/* The time, the numbers and the words; 0 if one is of another type, or cannot be read. */
static int lend_header(struct state *state, struct building *building, PyObject *record)
{
    struct syslogbox_text *const words[] = {&building->fields.hostname, &building->fields.app_name,
                                            &building->fields.proc_id, &building->fields.msg_id};
    PyObject *micros = held(state, building, record, MICROS), *bom = micros ? held(state, building, record, BOM) : NULL;
    long long facility, severity, time = 0;

    if (!bom || !PyBool_Check(bom) || (micros != Py_None && !whole(micros, INT64_MIN, INT64_MAX, &time)) ||
        !whole(held(state, building, record, FACILITY), 0, UINT32_MAX, &facility) ||
        !whole(held(state, building, record, SEVERITY), 0, UINT32_MAX, &severity))
        return 0;
    building->fields.time = time;
    building->fields.has_time = micros != Py_None;
    building->fields.facility = (uint32_t)facility;
    building->fields.severity = (uint32_t)severity;
    building->fields.has_bom = bom == Py_True;
    for (int i = 0; i < 4; i++) {
        PyObject *word = held(state, building, record, (enum attribute)(HOSTNAME + i));

        if (!word || (word != Py_None && !lend(building, word, words[i])))
            return 0;
    }
    return 1;
}

/* Holds the ids and the parameters of elements, and counts their items; 0 as above. */
static int hold_elements(struct state *state, struct building *building, PyObject *elements)
{
    Py_ssize_t count = PyTuple_Size(elements);

    for (Py_ssize_t n = 0; n < count; n++) {
        PyObject *element = PyTuple_GetItem(elements, n), *params;

        if ((PyObject *)Py_TYPE(element) != state->element || !held(state, building, element, ID) ||
            !(params = held(state, building, element, PARAMS)) || !PyTuple_CheckExact(params))
            return 0;
        building->fields.item_count += 1 + 2 * (size_t)PyTuple_Size(params);
    }
    return 1;
}

/* Lends the items of the ids and the parameters that are held from `first` on; 0 as above. */
static int lend_items(struct building *building, Py_ssize_t first)
{
    struct syslogbox_item *item = building->items;
    Py_ssize_t end = PyList_Size(building->held);

    for (Py_ssize_t i = first; i + 1 < end; i += 2) {
        PyObject *params = PyList_GetItem(building->held, i + 1);
        Py_ssize_t count = PyTuple_Size(params);

        item->part = SYSLOGBOX_PART_ELEMENT_ID;
        if (!lend(building, PyList_GetItem(building->held, i), &item++->text))
            return 0;
        for (Py_ssize_t n = 0; n < count; n++) {
            PyObject *param = PyTuple_GetItem(params, n);

            if (!PyTuple_CheckExact(param) || PyTuple_Size(param) != 2)
                return 0;
            item->part = SYSLOGBOX_PART_PARAM_NAME;
            if (!lend(building, PyTuple_GetItem(param, 0), &item++->text))
                return 0;
            item->part = SYSLOGBOX_PART_PARAM_VALUE;
            if (!lend(building, PyTuple_GetItem(param, 1), &item++->text))
                return 0;
        }
    }
    return 1;
}

/* All that a record is built of; 0 if some of it is of another type, or cannot be read. */
static int lend_record(struct state *state, struct building *building, PyObject *record)
{
    PyObject *message, *elements;
    struct octets octets;
    Py_ssize_t first;

    if ((PyObject *)Py_TYPE(record) != state->record || !lend_header(state, building, record) ||
        !(message = held(state, building, record, MESSAGE)) || !PyBytes_CheckExact(message) ||
        !(elements = held(state, building, record, ELEMENTS)) || !PyTuple_CheckExact(elements))
        return 0;
    octets = octets_of(message);
    building->fields.message = (struct syslogbox_text){octets.at, octets.len};
    building->octets += octets.len;
    first = PyList_Size(building->held);
    if (!hold_elements(state, building, elements))
        return 0;
    if (building->fields.item_count > ITEMS &&
        !(building->items = PyMem_Malloc(building->fields.item_count * sizeof *building->items)))
        return 0;
    building->fields.items = building->items;
    return lend_items(building, first);
}

static PyObject *build(PyObject *module, PyObject *const *args, Py_ssize_t count, PyObject *names)
{
    struct state *state = state_of(module);
    struct building building = {.octets = 0};
    struct syslogbox_fault fault;
    uint8_t on_stack[ROOM], *out;
    PyObject *answer = NULL;
    size_t room;

    if (count != 1 || names)
        return in_python(module, BUILD, args, count, names);
    building.items = building.on_stack;
    if (!(building.held = PyList_New(0)))
        return NULL;
    if (!lend_record(state, &building, args[0])) {
        PyErr_Clear(); /* the function in Python raises it again, or what it raises first */
        answer = in_python(module, BUILD, args, count, names);
    } else {
        /* a value may have an escape for each octet, and an item two octets and two marks more */
        room = 2 * building.octets + 4 * building.fields.item_count + 64;
        if ((out = room_for(room, on_stack))) {
            answer = written(state->field_error, state->calls.build(&building.fields, out, room, &fault), out, &fault);
            let_go(out, on_stack);
        }
    }
    if (building.items != building.on_stack)
        PyMem_Free(building.items);
    Py_DECREF(building.held);
    return answer;
}

/* ---- packets */

/* The dialect of the one argument that may be given by a name: 1 where it is not given, 0 if it is something else. */
static int dialect_of(PyObject *const *args, Py_ssize_t count, PyObject *names)
{
    long dialect;

    if (!names || !PyTuple_Size(names))
        return SYSLOGBOX_BSD;
    if (PyTuple_Size(names) != 1 || PyUnicode_CompareWithASCIIString(PyTuple_GetItem(names, 0), "dialect") ||
        !PyLong_Check(args[count]))
        return 0;
    dialect = PyLong_AsLong(args[count]);
    if (dialect == -1)
        PyErr_Clear();
    return dialect == SYSLOGBOX_BSD || dialect == SYSLOGBOX_WIDE ? (int)dialect : 0;
}

static PyObject *legacy(PyObject *module, PyObject *const *args, Py_ssize_t count, PyObject *names)
{
    struct state *state = state_of(module);
    struct syslogbox_fault fault;
    uint8_t on_stack[ROOM], *out;
    long long year, minutes = 0;
    struct octets packet;
    PyObject *octets = NULL;
    int64_t answer;
    size_t room;
    int dialect;

    if (count < 2 || count > 3 || !(dialect = dialect_of(args, count, names)) || !PyBytes_Check(args[0]) ||
        !whole(args[1], INT32_MIN, INT32_MAX, &year) || (count == 3 && !whole(args[2], INT32_MIN, INT32_MAX, &minutes)))
        return in_python(module, LEGACY, args, count, names);
    packet = octets_of(args[0]);
    room = 2 * packet.len + 64;
    if (!(out = room_for(room, on_stack)))
        return NULL;
    answer = state->calls.packet(dialect, (int)year, (int)minutes, packet.at, packet.len, out, room, &fault);
    if (answer >= 0)
        octets = PyBytes_FromStringAndSize((const char *)out, (Py_ssize_t)answer);
    let_go(out, on_stack);
    /* which of two exceptions it is, that one says */
    return answer < 0 ? in_python(module, LEGACY, args, count, names) : octets;
}

/* ---- what a fault says */

static PyObject *fault_text(PyObject *module, PyObject *const *args, Py_ssize_t count, PyObject *names)
{
    struct syslogbox_fault fault;
    char text[128];
    size_t len;

    if (count != 3 || names || !PyLong_Check(args[0]) || !PyLong_Check(args[1]) || !PyLong_Check(args[2]))
        return in_python(module, FAULT_TEXT, args, count, names);
    fault.kind = (uint32_t)PyLong_AsUnsignedLongMask(args[0]);
    fault.field = (uint32_t)PyLong_AsUnsignedLongMask(args[1]);
    fault.offset = PyLong_AsUnsignedLongLongMask(args[2]);
    len = state_of(module)->calls.fault_text(&fault, text, sizeof text);
    return text_of((const uint8_t *)text, len < sizeof text ? len : sizeof text - 1);
}

/* ---- streams and lists */

/* The octets of a frame that was found in a piece; None if it was too long. */
static PyObject *octets_found(const uint8_t *piece, int answer, const struct syslogbox_found *found)
{
    if (answer != SYSLOGBOX_SCAN_FRAME)
        return Py_NewRef(Py_None);
    return PyBytes_FromStringAndSize((const char *)piece + found->start, (Py_ssize_t)(found->end - found->start));
}

/*
 * What comes next in a stream: scan(framing, longest, held, at, inside, left). The answer is (found, at, answer, start,
 * inside, left): of each frame where it ends in `held`, and its octets or None, and where the scanner is then.
 */
static PyObject *scan(PyObject *module, PyObject *const *args, Py_ssize_t count, PyObject *names)
{
    struct state *state = state_of(module);
    struct syslogbox_scanner scanner;
    struct syslogbox_found found = {0, 0, 0};
    long long framing, longest, begin, inside;
    struct octets held;
    int answer = SYSLOGBOX_SCAN_FRAME;
    PyObject *frames;
    size_t at;

    if (count != 6 || names || !PyLong_Check(args[0]) || !PyBytes_Check(args[2]) || !PyLong_Check(args[5]) ||
        !whole(args[1], 0, PY_SSIZE_T_MAX, &longest) || !whole(args[3], 0, PyBytes_Size(args[2]), &begin) ||
        !whole(args[4], 0, UINT32_MAX, &inside))
        return in_python(module, SCAN, args, count, names);
    framing = PyLong_AsLong(args[0]);
    scanner = (struct syslogbox_scanner){(uint32_t)inside, PyLong_AsUnsignedLongLongMask(args[5])};
    if (PyErr_Occurred())
        return NULL;
    held = octets_of(args[2]);
    at = (size_t)begin;
    if (!(frames = PyList_New(0)))
        return NULL;
    for (int n = 0; n < FRAMES && answer > 0; n++) {
        PyObject *frame;

        answer = state->calls.scan((int)framing, (size_t)longest, held.at + at, held.len - at, &scanner, &found);
        if (answer < -1)
            break;
        if (answer > 0) {
            PyObject *end = PyLong_FromSize_t(at + found.used);

            frame = pair(end, end ? octets_found(held.at + at, answer, &found) : NULL);
            if (!frame || PyList_Append(frames, frame)) {
                Py_XDECREF(frame);
                Py_DECREF(frames);
                return NULL;
            }
            Py_DECREF(frame);
        }
        at += found.used;
    }
    return Py_BuildValue("(NninIK)", frames, (Py_ssize_t)at, answer, (Py_ssize_t)found.start,
                         (unsigned int)scanner.inside, (unsigned long long)scanner.left);
}

/* The numbers, in a list of bytes, of those that are no record: refused(batch). None if one of them is not bytes. */
static PyObject *refused(PyObject *module, PyObject *const *args, Py_ssize_t count, PyObject *names)
{
    struct state *state = state_of(module);
    PyObject *batch, *numbers = NULL;
    struct octets *records;
    Py_ssize_t len;

    if (count != 1 || names || !PyList_CheckExact(args[0]))
        return in_python(module, REFUSED, args, count, names);
    /* nothing takes a record out of a tuple while other threads run */
    if (!(batch = PyList_AsTuple(args[0])))
        return NULL;
    len = PyTuple_Size(batch);
    if (!(records = PyMem_Malloc((size_t)(len ? len : 1) * sizeof *records))) {
        PyErr_NoMemory();
        goto end;
    }
    for (Py_ssize_t i = 0; i < len; i++) {
        PyObject *record = PyTuple_GetItem(batch, i);

        if (!PyBytes_Check(record)) {
            numbers = Py_NewRef(Py_None);
            goto end;
        }
        records[i] = octets_of(record);
    }
    Py_BEGIN_ALLOW_THREADS
    for (Py_ssize_t i = 0; i < len; i++)
        if (state->calls.check(records[i].at, records[i].len, NULL))
            records[i].at = NULL;
    Py_END_ALLOW_THREADS
    numbers = PyList_New(0);
    for (Py_ssize_t i = 0; numbers && i < len; i++) {
        PyObject *number = records[i].at ? PyLong_FromSsize_t(i) : NULL;

        if (records[i].at && (!number || PyList_Append(numbers, number)))
            Py_CLEAR(numbers);
        Py_XDECREF(number);
    }
end:
    PyMem_Free(records);
    Py_DECREF(batch);
    return numbers;
}

/* ---- the module */

static const struct {
    const char *name;
    PyObject *(*call)(PyObject *, PyObject *const *, Py_ssize_t, PyObject *);
} functions[FUNCTIONS] = {
    [CHECK] = {"check", check},
    [IS_RECORD] = {"is_record", is_record},
    [REFUSAL] = {"refusal", refusal},
    [CANONICAL] = {"canonical", canonical},
    [VIEW] = {"view", view},
    [BUILD] = {"build", build},
    [LEGACY] = {"legacy", legacy},
    [TRIMMED] = {"trimmed", trimmed},
    [FAULT_TEXT] = {"fault_text", fault_text},
    [SCAN] = {"scan", scan},
    [REFUSED] = {"refused", refused},
};

/* The address of a call among those that are given; 0 with an exception raised. */
static uintptr_t address_of(PyObject *addresses, const char *name)
{
    PyObject *number = PyMapping_GetItemString(addresses, name);
    uintptr_t address = number ? (uintptr_t)PyLong_AsSize_t(number) : 0;

    Py_XDECREF(number);
    if (!PyErr_Occurred() && !address)
        PyErr_Format(PyExc_ValueError, "there is no address of %s", name);
    return PyErr_Occurred() ? 0 : address;
}

/* Puts an object in a place, also of another one: a module of the package may be loaded again. */
static int put(struct state *state, PyObject **place, PyObject *object)
{
    if (*place && PyList_Append(state->former, *place))
        return -1;
    Py_XDECREF(*place); /* the list holds it */
    *place = Py_NewRef(object);
    return 0;
}

/* set_up(addresses, RecordError, FieldError): a mapping of the names of calls to where they are, and classes. */
static PyObject *set_up(PyObject *module, PyObject *args)
{
    struct state *state = state_of(module), all;
    PyObject *addresses, *record_error, *field_error;

    if (!PyArg_ParseTuple(args, "OOO:set_up", &addresses, &record_error, &field_error))
        return NULL;
#define FIND(name)                                                                                  \
    if (!(all.calls.name = (__typeof__(syslogbox_##name) *)address_of(addresses, #name)))           \
        return NULL;
    CALLS(FIND)
    state->calls = all.calls;
    for (int i = 0; i < ATTRIBUTES; i++)
        if (!state->names[i] && !(state->names[i] = PyUnicode_InternFromString(attributes[i])))
            return NULL;
    if (!state->nothing && !(state->nothing = PyTuple_New(0)))
        return NULL;
    if ((!state->former && !(state->former = PyList_New(0))) || put(state, &state->record_error, record_error) ||
        put(state, &state->field_error, field_error))
        return NULL;
    return Py_NewRef(Py_None);
}

/* shows(Record, Element): the classes of what `view` returns, and `build` takes. */
static PyObject *shows(PyObject *module, PyObject *args)
{
    struct state *state = state_of(module);
    PyObject *record, *element;

    if (!PyArg_ParseTuple(args, "O!O!:shows", &PyType_Type, &record, &PyType_Type, &element))
        return NULL;
    if (put(state, &state->record, record) || put(state, &state->element, element))
        return NULL;
    return Py_NewRef(Py_None);
}

/* bound(function, name, text, of): the function of this name in C, which falls back on that one in Python. */
static PyObject *bound(PyObject *module, PyObject *args)
{
    struct state *state = state_of(module);
    PyObject *function, *text, *of;
    const char *name, *told;
    int which = 0;

    if (!PyArg_ParseTuple(args, "OsUU:bound", &function, &name, &text, &of) ||
        !(told = PyUnicode_AsUTF8AndSize(text, NULL)))
        return NULL;
    while (which < FUNCTIONS && strcmp(functions[which].name, name))
        which++;
    if (which == FUNCTIONS || !state->record_error ||
        ((which == VIEW || which == BUILD) && !state->record)) {
        PyErr_Format(PyExc_ValueError, "%s is not a function to be bound here", name);
        return NULL;
    }
    if (put(state, &state->fallbacks[which], function) || put(state, &state->texts[which], text))
        return NULL;
    state->definitions[which] = (PyMethodDef){functions[which].name, (PyCFunction)(void (*)(void))functions[which].call,
                                              METH_FASTCALL | METH_KEYWORDS, told};
    return PyCFunction_NewEx(&state->definitions[which], module, of);
}

static PyMethodDef methods[] = {
    {"set_up", set_up, METH_VARARGS, NULL},
    {"shows", shows, METH_VARARGS, NULL},
    {"bound", bound, METH_VARARGS, NULL},
    {NULL, NULL, 0, NULL},
};

static int traverse(PyObject *module, visitproc visit, void *arg)
{
    struct state *state = state_of(module);

    if (!state)
        return 0;
    Py_VISIT(state->record_error);
    Py_VISIT(state->field_error);
    Py_VISIT(state->record);
    Py_VISIT(state->element);
    Py_VISIT(state->former);
    for (int i = 0; i < FUNCTIONS; i++)
        Py_VISIT(state->fallbacks[i]);
    return 0;
}

/* Nothing is let go of before the module itself is, since its functions may be called until then. */
static void free_state(void *module)
{
    struct state *state = state_of(module);

    if (!state)
        return;
    Py_CLEAR(state->record_error);
    Py_CLEAR(state->field_error);
    Py_CLEAR(state->record);
    Py_CLEAR(state->element);
    Py_CLEAR(state->nothing);
    Py_CLEAR(state->former);
    for (int i = 0; i < ATTRIBUTES; i++)
        Py_CLEAR(state->names[i]);
    for (int i = 0; i < FUNCTIONS; i++) {
        Py_CLEAR(state->fallbacks[i]);
        Py_CLEAR(state->texts[i]);
    }
}

static struct PyModuleDef definition = {
    .m_base = PyModuleDef_HEAD_INIT,
    .m_name = "syslogbox._calls",
    .m_doc = "Calls of libsyslogbox, in place of those that the package makes by ctypes.",
    .m_size = sizeof(struct state),
    .m_methods = methods,
    .m_traverse = traverse,
    .m_free = free_state,
};

PyMODINIT_FUNC PyInit__calls(void)
{
    return PyModuleDef_Init(&definition);
}
