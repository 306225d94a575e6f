# The types by which telling.py is compiled.
cimport cython
from wadrelwy.verdict.values cimport Value, Valued
from wadrelwy.view.items cimport Item
from wadrelwy.view.pipeline cimport Pipeline
from wadrelwy.view.reasons cimport Reasons
from wadrelwy.view.replay cimport Replay
from wadrelwy.view.rows cimport Event, Row


cdef class Telling(Replay):
    cdef public Valued valued
    cdef public Reasons rules
    cdef public bint thorough, was_empty, differs
    cdef public dict held, shown, holding, showing
    cdef public object wrong_loads
    cdef public long long wrong_values, watched
    cdef public object chain
    cdef public set loads
    cdef public list held_now
    cpdef step(self, Row row)
    @cython.locals(value=Value)
    cpdef bint hidden(self, Item item) except? -1
    @cython.locals(value=Value)
    cpdef bint hidden_base(self, Item item) except? -1
    @cython.locals(first=Item, last=Item)
    cpdef bint nothing_is_hidden(self) except? -1
    cpdef bint reaches(self, Item item) except? -1
    @cython.locals(item=Item, found=list)
    cpdef list ready(self)
    @cython.locals(item=Item, hidden=list, squashed=cython.bint, value=Value)
    cpdef bint resolve(self, list events) except? -1
    @cython.locals(store=Item, violated=Item, stores=list, value=Value)
    cpdef Item clear(self, list events)
    @cython.locals(event=Event, item=Item, value=Value)
    cpdef retire(self, list events, bint ends)
    @cython.locals(event=Event, item=Item, value=Value)
    cpdef issue(self, list events)
    @cython.locals(store=Item, value=Value)
    cpdef load(self, Item item, bint accesses)
    cpdef went(self, Item item)
