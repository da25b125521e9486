/* _native.c: what this package does for each record, and while one is waited for, once more in C, where it takes a fraction of the
 * time. What is here does the same as what has its name in the package's Python, which is used where this was not built. It knows the
 * library by the addresses of its calls. Each call is one step, which is broken off by no signal's handler and beside which no other
 * thread runs: it keeps the interpreter's lock, waits for nothing, and calls nothing in Python, but for `result` where there is none
 * yet, which is the class's own then. By the limited API one build serves each CPython from 3.9 on. */
#define PY_SSIZE_T_CLEAN
#define Py_LIMITED_API 0x030a0000
#include <Python.h>
#include <structmember.h>
#include <errno.h>
#include <stdbool.h>
#include <string.h>
#include <sys/socket.h>
#include <time.h>

/* Python 3.9 has it too, and does not declare it. */
PyAPI_FUNC(PyObject *) PyObject_GenericGetDict(PyObject *, void *);

enum {
    ALONE = -1,       /* in place of a partition: there is no report, and nobody has begun to wait */
    AWAITED = -2,     /* or only for the result */
    SIZE = 1024,      /* how many bytes a value in the queue has at most */
    TOLD = 1024,      /* so many places of records that were told of a line has at least, and more than others, before it lets go of them */
    REPORTS = 1024,   /* how many reports a call fetches at most */
    DELIVERED = 0,    /* of the outcomes */
    OK = 0, NO_CONNECTION = 10 /* of the statuses, those that tell of no fault */
};

/* ---- the library's calls, as kp.h has them */

struct ticket { uint64_t number; uint32_t partition; };
struct span { uint64_t name_len, value_len; bool has_value; };
struct run { uint64_t number; int64_t detail; uint64_t count; uint32_t partition, outcome; };
static int32_t (*kp_send)(void *, int32_t, bool, const uint8_t *, size_t, bool, const uint8_t *, size_t, const struct span *, size_t,
                          const uint8_t *, size_t, int64_t, uint64_t, struct ticket *);
static int32_t (*kp_take)(void *, uint32_t, uint64_t, uint8_t *, size_t, size_t *);
static int32_t (*kp_feed)(void *, uint32_t, const uint8_t *, size_t, uint64_t);
static size_t (*kp_runs)(void *, struct run *, size_t);

static PyObject *use(PyObject *module, PyObject *words) {
    unsigned long long send_at, take_at, feed_at, runs_at;
    (void)module;
    if (!PyArg_ParseTuple(words, "KKKK", &send_at, &take_at, &feed_at, &runs_at)) return NULL;
    *(void **)&kp_send = (void *)(uintptr_t)send_at;
    *(void **)&kp_take = (void *)(uintptr_t)take_at;
    *(void **)&kp_feed = (void *)(uintptr_t)feed_at;
    *(void **)&kp_runs = (void *)(uintptr_t)runs_at;
    Py_RETURN_NONE;
}

/* ---- futures */

/* What one has beside what it has of its class in Python. */
struct pending { PyObject *sent, *server; int partition; };

static PyTypeObject *kind; /* that of the futures */
static Py_ssize_t pending_at;
static PyObject *wait_for_result; /* the class's own `result` */
static PyTypeObject *report_kind;
static PyObject *delivered, *no_advice, *no_error;

static struct pending *pending_of(PyObject *it) {
    return (struct pending *)((char *)it + pending_at);
}

/* A future of what was sent, for which nobody waits yet. While it has nothing but bytes, or an offset, it is in no cycle, and the
 * garbage collector need not look through it: with a million of them that takes longer than all else. */
static PyObject *make_pending(PyObject *sent) {
    PyObject *made = PyType_GenericAlloc(kind, 0);
    if (made == NULL) return NULL;
    Py_INCREF(sent);
    Py_INCREF(Py_None);
    *pending_of(made) = (struct pending){ sent, Py_None, ALONE };
    if (PyBytes_CheckExact(sent)) PyObject_GC_UnTrack(made);
    return made;
}

static PyObject *pending(PyObject *module, PyObject *sent) {
    (void)module;
    return make_pending(sent);
}

/* The collector looks through it from now on, since it may get anything. */
static void track(PyObject *self) {
    if (!PyObject_GC_IsTracked(self)) PyObject_GC_Track(self);
}

static int set_attribute(PyObject *self, PyObject *name, PyObject *value) {
    track(self);
    return PyObject_GenericSetAttr(self, name, value);
}

static PyObject *dictionary(PyObject *self, void *unused) {
    track(self);
    return PyObject_GenericGetDict(self, unused);
}

static PyObject *report(int partition, PyObject *offset) {
    PyObject *made = PyType_GenericAlloc(report_kind, 5), *place = PyLong_FromLong(partition);
    PyObject *fields[] = { place, offset, delivered, no_advice, no_error };
    if (made == NULL || place == NULL) {
        Py_XDECREF(made);
        Py_XDECREF(place);
        return NULL;
    }
    for (Py_ssize_t k = 0; k < 5; k++) {
        if (k > 0) Py_INCREF(fields[k]);
        PyTuple_SetItem(made, k, fields[k]);
    }
    return made;
}

static PyObject *result(PyObject *self, PyObject *words, PyObject *named) {
    const struct pending *it = pending_of(self);
    if (it->partition >= 0) return report(it->partition, it->sent);
    PyObject *own = PyTuple_Pack(1, self), *all = own ? PySequence_Concat(own, words) : NULL;
    PyObject *told = all ? PyObject_Call(wait_for_result, all, named) : NULL;
    Py_XDECREF(own);
    Py_XDECREF(all);
    return told;
}

/* A class over one in Python, with members of so many bytes behind what that has, and other slots. */
static PyObject *class_over(PyObject *base, const char *name, Py_ssize_t *at, size_t size, PyMemberDef *members, PyType_Slot *slots) {
    PyObject *length = PyObject_GetAttrString(base, "__basicsize__"), *bases = PyTuple_Pack(1, base), *made = NULL;
    *at = length ? PyLong_AsSsize_t(length) : -1;
    for (PyMemberDef *it = members; it->name != NULL; it++) it->offset += *at;
    PyType_Spec spec = { name, (int)*at + (int)size, 0, Py_TPFLAGS_DEFAULT, slots };
    if (bases != NULL && *at > 0) made = PyType_FromSpecWithBases(&spec, bases);
    Py_XDECREF(length);
    Py_XDECREF(bases);
    return made;
}

/* The class of the futures, over the one in Python that has all else; what a report is, and the outcome of what was delivered. */
static PyObject *futures(PyObject *module, PyObject *words) {
    PyMemberDef members[] = { { "sent", T_OBJECT_EX, offsetof(struct pending, sent), 0, NULL },
                              { "server", T_OBJECT_EX, offsetof(struct pending, server), 0, NULL },
                              { "_partition", T_INT, offsetof(struct pending, partition), 0, NULL },
                              { NULL, 0, 0, 0, NULL } };
    static PyMethodDef methods[] = { { "result", (PyCFunction)(void (*)(void))result, METH_VARARGS | METH_KEYWORDS, NULL },
                                     { NULL, NULL, 0, NULL } };
    static PyGetSetDef dictionaries[] = { { "__dict__", dictionary, NULL, NULL, NULL }, { NULL, NULL, NULL, NULL, NULL } };
    PyType_Slot slots[] = { { Py_tp_members, members }, { Py_tp_methods, methods }, { Py_tp_getset, dictionaries },
                            { Py_tp_setattro, (void *)set_attribute }, { 0, NULL } };
    PyObject *base, *reports;
    (void)module;
    if (!PyArg_ParseTuple(words, "OOO", &base, &reports, &delivered)) return NULL;
    Py_INCREF(reports);
    Py_INCREF(delivered);
    report_kind = (PyTypeObject *)reports;
    no_advice = PyUnicode_FromString("");
    no_error = PyLong_FromLong(0);
    wait_for_result = PyObject_GetAttrString(base, "result");
    if (no_advice == NULL || no_error == NULL || wait_for_result == NULL) return NULL;
    PyObject *made = class_over(base, "lembicsov._futures.Pending", &pending_at, sizeof(struct pending), members, slots);
    Py_XINCREF(made);
    kind = (PyTypeObject *)made;
    return made;
}

/* ---- the records that are open */

/* What a partition's line has beside what it has of its class in Python, and what all of them have. */
struct line { PyObject *owners; Py_ssize_t first, told; };
struct open { PyObject *lines, *left; Py_ssize_t records; unsigned long long producer, runs; };

static PyTypeObject *line_kind;
static Py_ssize_t line_at, open_at;

static struct line *line_of(PyObject *it) {
    return (struct line *)((char *)it + line_at);
}

static struct open *open_of(PyObject *it) {
    return (struct open *)((char *)it + open_at);
}

/* The line of a partition, borrowed; it is made where there is none. */
static struct line *line_for(const struct open *open, uint32_t partition) {
    PyObject *number = PyLong_FromUnsignedLong(partition), *line = number ? PyDict_GetItemWithError(open->lines, number) : NULL;
    if (line == NULL && number != NULL && !PyErr_Occurred()) {
        PyObject *made = PyType_GenericAlloc(line_kind, 0), *owners = PyList_New(0);
        if (made != NULL) line_of(made)->owners = owners;
        if (made != NULL && owners != NULL && PyDict_SetItem(open->lines, number, made) == 0) line = made;
        Py_XDECREF(made);
    }
    Py_XDECREF(number);
    return line ? line_of(line) : NULL;
}

/* Has a future's value accepted, for whichever partition: the status of that. */
static PyObject *accept_value(PyObject *self, PyObject *words) {
    static const struct span no_header;
    struct open *open = open_of(self);
    struct ticket ticket;
    PyObject *record;
    long long timestamp;
    unsigned long long now;
    if (!PyArg_ParseTuple(words, "O!LK", kind, &record, &timestamp, &now)) return NULL;
    const uint8_t *value = (const uint8_t *)PyBytes_AsString(pending_of(record)->sent);
    if (value == NULL) return NULL;
    size_t size = (size_t)PyBytes_Size(pending_of(record)->sent);
    int32_t status = kp_send((void *)(uintptr_t)open->producer, -1, false, value, 0, true, value, size, &no_header, 0, value, 0,
                             timestamp, now, &ticket);
    if (status == OK) {
        struct line *line = line_for(open, ticket.partition);
        if (line == NULL || PyList_Append(line->owners, record) < 0) return NULL;
        open->records++;
    }
    return PyLong_FromLong(status);
}

/* Whether the owner is a future for which nobody waits, or only for its result. */
static bool may_keep(PyObject *owner) {
    return Py_TYPE(owner) == kind && (pending_of(owner)->partition == ALONE || pending_of(owner)->partition == AWAITED);
}

/* Those that wait for a future's result go on. */
static bool let_go(PyObject *owner) {
    PyObject *those = PyObject_GetAttrString(owner, "_held_back");
    bool are_gone = those != NULL;
    for (Py_ssize_t left = are_gone && those != Py_None ? PyList_Size(those) : 0; are_gone && left > 0; left--) {
        PyObject *released = PyObject_CallMethod(PyList_GetItem(those, left - 1), "release", NULL);
        are_gone = released != NULL && PyList_SetSlice(those, left - 1, left, NULL) == 0;
        Py_XDECREF(released);
    }
    Py_XDECREF(those);
    return are_gone;
}

/* Has a future keep the report of a record that was delivered. */
static bool keep(PyObject *owner, int partition, int64_t offset) {
    struct pending *it = pending_of(owner);
    bool is_awaited = it->partition == AWAITED;
    PyObject *kept = PyLong_FromLongLong(offset), *sent = it->sent;
    if (kept == NULL) return false;
    it->sent = kept;
    it->partition = partition;
    Py_XDECREF(sent);
    return !is_awaited || let_go(owner);
}

/* So many in front of a line have their report: it lets go of them, where they are most. */
static void note_told(struct line *line, Py_ssize_t told) {
    while (told < PyList_Size(line->owners) && PyList_GetItem(line->owners, told) == Py_None) told++;
    if (told > TOLD && 2 * told > PyList_Size(line->owners) && PyList_SetSlice(line->owners, 0, told, NULL) == 0) {
        line->first += told;
        told = 0;
    }
    line->told = told;
}

/* Takes out the records that a run of reports is of, where all of their owners may keep these: whether it has; below 0 it has failed. */
static int keep_run(struct open *open, const struct run *run) {
    struct line *line = line_for(open, run->partition);
    if (line == NULL) return -1;
    Py_ssize_t first = (Py_ssize_t)run->number - line->first, end = first + (Py_ssize_t)run->count;
    if (first < 0 || end > PyList_Size(line->owners)) return 0;
    for (Py_ssize_t place = first; place < end; place++)
        if (!may_keep(PyList_GetItem(line->owners, place))) return 0;
    for (Py_ssize_t place = first; place < end; place++) {
        if (!keep(PyList_GetItem(line->owners, place), (int)run->partition, run->detail + (place - first))) return -1;
        Py_INCREF(Py_None);
        PyList_SetItem(line->owners, place, Py_None);
    }
    open->records -= (Py_ssize_t)run->count;
    if (first == line->told) note_told(line, end);
    return 1;
}

/* Adds a run of reports to those that are left. */
static bool leave_run(struct open *open, const struct run *run) {
    PyObject *words = Py_BuildValue("kkKLK", (unsigned long)run->partition, (unsigned long)run->outcome, (unsigned long long)run->number,
                                    (long long)run->detail, (unsigned long long)run->count);
    bool is_left = words != NULL && PyList_Append(open->left, words) == 0;
    Py_XDECREF(words);
    return is_left;
}

/* Fetches the reports that there are, and leaves those runs of which not all owners keep their reports. */
static PyObject *fetch_runs(PyObject *self, PyObject *keeps) {
    struct open *open = open_of(self);
    struct run *runs = (struct run *)(uintptr_t)open->runs;
    for (uint64_t told = REPORTS; told == REPORTS;) {
        size_t count = kp_runs((void *)(uintptr_t)open->producer, runs, REPORTS);
        told = 0;
        for (size_t k = 0; k < count; k++) {
            int is_kept = keeps == Py_True && runs[k].outcome == DELIVERED ? keep_run(open, &runs[k]) : 0;
            if (is_kept < 0 || (is_kept == 0 && !leave_run(open, &runs[k]))) return NULL;
            told += runs[k].count;
        }
    }
    Py_RETURN_NONE;
}

/* The classes of lines and of all of them, over those in Python that have all else. */
static PyObject *lines_and_all(PyObject *module, PyObject *words) {
    PyMemberDef of_line[] = { { "owners", T_OBJECT_EX, offsetof(struct line, owners), 0, NULL },
                              { "_first", T_PYSSIZET, offsetof(struct line, first), 0, NULL },
                              { "_told", T_PYSSIZET, offsetof(struct line, told), 0, NULL },
                              { NULL, 0, 0, 0, NULL } };
    PyMemberDef of_all[] = { { "_lines", T_OBJECT_EX, offsetof(struct open, lines), 0, NULL },
                             { "left", T_OBJECT_EX, offsetof(struct open, left), 0, NULL },
                             { "records", T_PYSSIZET, offsetof(struct open, records), 0, NULL },
                             { "_producer", T_ULONGLONG, offsetof(struct open, producer), 0, NULL },
                             { "_runs_place", T_ULONGLONG, offsetof(struct open, runs), 0, NULL },
                             { NULL, 0, 0, 0, NULL } };
    static PyMethodDef methods[] = { { "accept_value", accept_value, METH_VARARGS, NULL },
                                     { "fetch_runs", fetch_runs, METH_O, NULL },
                                     { NULL, NULL, 0, NULL } };
    PyType_Slot line_slots[] = { { Py_tp_members, of_line }, { 0, NULL } };
    PyType_Slot slots[] = { { Py_tp_members, of_all }, { Py_tp_methods, methods }, { 0, NULL } };
    PyObject *line, *all;
    (void)module;
    if (!PyArg_ParseTuple(words, "OO", &line, &all)) return NULL;
    line_kind = (PyTypeObject *)class_over(line, "lembicsov._open.Line", &line_at, sizeof(struct line), of_line, line_slots);
    all = line_kind ? class_over(all, "lembicsov._open.Open", &open_at, sizeof(struct open), of_all, slots) : NULL;
    return all ? Py_BuildValue("ON", (PyObject *)line_kind, all) : NULL;
}

/* ---- values */

/* What a queue has beside what it has of its class in Python. */
struct queue { PyObject *records; Py_ssize_t room; double until; };

static Py_ssize_t queue_at;

static struct queue *queue_of(PyObject *it) {
    return (struct queue *)((char *)it + queue_at);
}

static double moment(void) {
    struct timespec now;
    clock_gettime(CLOCK_REALTIME, &now);
    return (double)now.tv_sec + (double)now.tv_nsec / 1e9;
}

/* Puts in a value alone, while the moment lasts and there is room: its future, or None. */
static PyObject *put_value(PyObject *self, PyObject *value) {
    const struct queue *queue = queue_of(self);
    Py_ssize_t size = PyBytes_Size(value);
    if (size < 0 || queue->records == NULL) return NULL;
    if (size > SIZE || PyList_Size(queue->records) >= queue->room || moment() >= queue->until) Py_RETURN_NONE;
    PyObject *made = make_pending(value);
    if (made != NULL && PyList_Append(queue->records, made) < 0) Py_CLEAR(made);
    return made;
}

/* The class of queues, over the one in Python that has all else. */
static PyObject *queues(PyObject *module, PyObject *base) {
    PyMemberDef members[] = { { "records", T_OBJECT_EX, offsetof(struct queue, records), 0, NULL },
                              { "_room", T_PYSSIZET, offsetof(struct queue, room), 0, NULL },
                              { "_until", T_DOUBLE, offsetof(struct queue, until), 0, NULL },
                              { NULL, 0, 0, 0, NULL } };
    static PyMethodDef methods[] = { { "put_value", put_value, METH_O, NULL }, { NULL, NULL, 0, NULL } };
    PyType_Slot slots[] = { { Py_tp_members, members }, { Py_tp_methods, methods }, { 0, NULL } };
    (void)module;
    return class_over(base, "lembicsov._queue.Queue", &queue_at, sizeof(struct queue), members, slots);
}

/* What of a list is sent at a place: a value, or what a record has in its attribute `sent`; borrowed of these. */
static PyObject *value_at(PyObject *those, Py_ssize_t place) {
    PyObject *it = PyList_GetItem(those, place), *value = it;
    if (it != NULL && Py_TYPE(it) == kind) value = pending_of(it)->sent;
    else if (it != NULL && !PyBytes_Check(it)) {
        value = PyObject_GetAttrString(it, "sent");
        Py_XDECREF(value);
    }
    if (value == NULL || PyBytes_Check(value)) return value;
    return PyErr_Format(PyExc_TypeError, "a value is no bytes");
}

/* Values, or those of records, one after the other, and their lengths. */
static PyObject *spell(PyObject *module, PyObject *those) {
    Py_ssize_t count = PyList_Size(those), size = 0;
    (void)module;
    if (count < 0) return NULL;
    PyObject *lengths = PyBytes_FromStringAndSize(NULL, count * (Py_ssize_t)sizeof(uint64_t)), *text = NULL, *value;
    for (Py_ssize_t place = 0; lengths != NULL && place < count; place++) {
        if ((value = value_at(those, place)) == NULL) { Py_CLEAR(lengths); break; }
        uint64_t length = (uint64_t)PyBytes_Size(value);
        memcpy(PyBytes_AsString(lengths) + place * (Py_ssize_t)sizeof length, &length, sizeof length);
        size += (Py_ssize_t)length;
    }
    if (lengths == NULL || (text = PyBytes_FromStringAndSize(NULL, size)) == NULL) { Py_XDECREF(lengths); return NULL; }
    char *to = PyBytes_AsString(text);
    for (Py_ssize_t place = 0; place < count; place++) {
        value = value_at(those, place); /* (as before, since nothing else has run) */
        size = PyBytes_Size(value);
        memcpy(to, PyBytes_AsString(value), (size_t)size);
        to += size;
    }
    PyObject *both = PyTuple_Pack(2, text, lengths);
    Py_DECREF(text);
    Py_DECREF(lengths);
    return both;
}

/* ---- sockets */

/* Of a call that moves bytes between sockets and a producer: where that and the room lie, the moment, and what has the sockets. */
struct moving { unsigned long long producer, now, room; Py_ssize_t size; PyObject *what; };

static bool is_moving(PyObject *words, struct moving *it) {
    return PyArg_ParseTuple(words, "KKKnO", &it->producer, &it->now, &it->room, &it->size, &it->what);
}

static bool is_for_a_while(int number) {
    return number == EAGAIN || number == EWOULDBLOCK || number == EINTR;
}

/* A number that an object has; it may fail, with an exception. */
static long number_of(PyObject *it, const char *name) {
    PyObject *held = PyObject_GetAttrString(it, name);
    long number = held ? PyLong_AsLong(held) : -1;
    Py_XDECREF(held);
    return number;
}

/* How many of these bytes a socket takes; it fails with an exception. */
static ssize_t write_some(int socket, const uint8_t *bytes, size_t count) {
    ssize_t sent = send(socket, bytes, count, MSG_NOSIGNAL | MSG_DONTWAIT);
    if (sent >= 0) return sent;
    if (is_for_a_while(errno)) return 0;
    PyErr_SetFromErrno(PyExc_OSError);
    return -1;
}

/* Writes these bytes to a socket, and behind them what its node is to get, as far as it takes them: the bytes that it has not taken.
 * NULL where it fails, with an exception. */
static PyObject *write_to(int socket, PyObject *out, uint32_t node, const struct moving *it, int32_t *status) {
    uint8_t *room = (uint8_t *)(uintptr_t)it->room;
    const uint8_t *from = (const uint8_t *)PyBytes_AsString(out);
    size_t count = (size_t)PyBytes_Size(out);
    ssize_t sent = count == 0 ? 0 : write_some(socket, from, count);
    while (sent >= 0 && (size_t)sent == count) {
        int32_t said = kp_take((void *)(uintptr_t)it->producer, node, it->now, room, (size_t)it->size, &count);
        if (said != OK && said != NO_CONNECTION) *status = said;
        from = room;
        sent = 0;
        if (count == 0) break;
        sent = write_some(socket, room, count);
    }
    return sent < 0 ? NULL : PyBytes_FromStringAndSize((const char *)from + sent, (Py_ssize_t)count - sent);
}

/* What has become of a connection that was written to: adds it to those that have changed, with its fault, where it has one. */
static bool note_written(PyObject *changed, PyObject *connection, PyObject *out, PyObject *left) {
    PyObject *kind_of_fault, *fault = NULL, *trace;
    if (left == NULL) {
        PyErr_Fetch(&kind_of_fault, &fault, &trace);
        PyErr_NormalizeException(&kind_of_fault, &fault, &trace);
        Py_XDECREF(kind_of_fault);
        Py_XDECREF(trace);
    } else if (PyBytes_Size(out) == 0 && PyBytes_Size(left) == 0) return true;
    else if (PyObject_SetAttrString(connection, "out", left) < 0) return false;
    PyObject *both = PyTuple_Pack(2, connection, fault ? fault : Py_None);
    bool is_noted = both != NULL && PyList_Append(changed, both) == 0;
    Py_XDECREF(both);
    Py_XDECREF(fault);
    return is_noted;
}

/* Writes what the nodes of connections are to get, as far as their sockets take it; what was taken and not written is `out`. The last
 * status that tells of a fault, and the connections whose `out` is not empty, or was not, or that have failed, each with its fault. */
static PyObject *write_out(PyObject *module, PyObject *words) {
    struct moving it;
    int32_t status = OK;
    (void)module;
    if (!is_moving(words, &it)) return NULL;
    PyObject *changed = PyList_New(0);
    for (Py_ssize_t place = 0; changed != NULL && place < PyList_Size(it.what); place++) {
        PyObject *connection = PyList_GetItem(it.what, place), *out = PyObject_GetAttrString(connection, "out"), *left = NULL;
        long node = number_of(connection, "node"), socket = number_of(connection, "descriptor");
        Py_INCREF(connection);
        if (out != NULL && !PyErr_Occurred()) left = write_to((int)socket, out, (uint32_t)node, &it, &status);
        if (!note_written(changed, connection, out, left)) Py_CLEAR(changed);
        Py_XDECREF(left);
        Py_XDECREF(out);
        Py_DECREF(connection);
    }
    return changed ? Py_BuildValue("iN", (int)status, changed) : NULL;
}

/* Has the producer hear what has come over a connection, as much as there is room for: whether the far end has ended it. */
static PyObject *read_in(PyObject *module, PyObject *words) {
    struct moving it;
    ssize_t size;
    (void)module;
    if (!is_moving(words, &it)) return NULL;
    uint8_t *room = (uint8_t *)(uintptr_t)it.room;
    long node = number_of(it.what, "node"), socket = number_of(it.what, "descriptor");
    if (PyErr_Occurred()) return NULL;
    size = recv((int)socket, room, (size_t)it.size, MSG_DONTWAIT);
    if (size < 0 && !is_for_a_while(errno)) return PyErr_SetFromErrno(PyExc_OSError);
    if (size > 0) kp_feed((void *)(uintptr_t)it.producer, (uint32_t)node, room, (size_t)size, it.now);
    return PyBool_FromLong(size == 0);
}

static PyMethodDef calls[] = {
    { "use", use, METH_VARARGS, NULL },
    { "futures", futures, METH_VARARGS, NULL },
    { "pending", pending, METH_O, NULL },
    { "lines_and_all", lines_and_all, METH_VARARGS, NULL },
    { "queues", queues, METH_O, NULL },
    { "spell", spell, METH_O, NULL },
    { "write_out", write_out, METH_VARARGS, NULL },
    { "read_in", read_in, METH_VARARGS, NULL },
    { NULL, NULL, 0, NULL },
};

static struct PyModuleDef definition = { PyModuleDef_HEAD_INIT, "_native", NULL, -1, calls, NULL, NULL, NULL, NULL };

PyMODINIT_FUNC PyInit__native(void) {
    return PyModule_Create(&definition);
}
