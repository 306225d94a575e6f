# The types by which rows.py is compiled.
cimport cython


cdef long long MOST_DIGITS, MOST_LETTERS, FACTOR


cpdef Py_ssize_t place_of(long long key)


cdef class Shape:
    cdef public str name
    cdef public long long phase, length, first, second, key
    cdef public bint squashes
    cdef public tuple found


cdef class Event:
    cdef public str name, text
    cdef public long long number, second
    cdef public object rest


@cython.locals(head=str, row=Row)
cpdef Row read_row(str line, long long number)


cdef class Row:
    cdef public long long cycle
    cdef public str line
    cdef public bint empty, ends, ordered
    cpdef begin(self, long long cycle, str line)
    cpdef tuple phases(self)
    @cython.locals(words=list, name=str, text=str, shape=Shape)
    cpdef tuple split(self)


@cython.locals(pool=list, number=cython.Py_ssize_t, place=cython.Py_ssize_t, last=cython.Py_ssize_t, behind=cython.Py_ssize_t, event=Event,
               shape=Shape, phases=tuple, letters=bytes, phase=list, turn=cython.Py_ssize_t, reached=cython.Py_ssize_t)
cpdef tuple scan(str line)


@cython.locals(key=cython.longlong, table=list, shape=Shape)
cdef Shape shape_of(const unsigned char *letters, Py_ssize_t place, Py_ssize_t behind)


@cython.locals(begin=cython.Py_ssize_t, alone=cython.bint)
cdef Py_ssize_t read_event(str line, const unsigned char *letters, Py_ssize_t place, Py_ssize_t last, Event event, Shape shape) except? -2


cdef Py_ssize_t end_of_word(const unsigned char *letters, Py_ssize_t place, Py_ssize_t last) except? -2


@cython.locals(number=cython.longlong, digit=cython.longlong)
cdef long long number_of(const unsigned char *letters, Py_ssize_t place, Py_ssize_t behind, long long base) except? -2


cpdef str text_of(Event event)
