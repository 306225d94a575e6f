# The types by which replay.py is compiled.
cimport cython
from wadrelwy.view.checks cimport Checks
from wadrelwy.view.front_end cimport FrontEnd
from wadrelwy.view.items cimport Item
from wadrelwy.view.pipeline cimport Pipeline
from wadrelwy.view.reasons cimport Reasons
from wadrelwy.view.rows cimport Event, Row
from wadrelwy.view.slots cimport Occupancy, Slots


cdef class Replay:
    cdef public object trace
    cdef public Pipeline pipeline
    cdef public Reasons reasons
    cdef public FrontEnd front
    cdef public Checks checks
    cdef public Slots slots
    cdef public Occupancy occupancy
    cdef public tuple span
    cdef public long long retired, width, next_serial
    cdef public bint asked, quiet, skips
    @cython.locals(pipeline=Pipeline, counted=cython.bint, told=cython.longlong, before=cython.longlong)
    cpdef step(self, Row row)
    @cython.locals(item=Item, flight=list, number=cython.Py_ssize_t)
    cpdef list gone(self)
    cpdef bint nothing_due(self, long long cycle) except? -1
    cpdef repeat(self, long long cycle)
    @cython.locals(pipeline=Pipeline, squashed=cython.bint, violated=Item, fetched=list,
                   fills=list, completes=list, resolves=list, clears=list, retires=list, issues=list, renames=list, fetches=list)
    cpdef take(self, Row row, tuple phases)
    @cython.locals(found=list, event=Event)
    cpdef list entries(self, list events)
    @cython.locals(found=list, event=Event)
    cpdef list fetch(self, list events)
    cpdef after_fetch(self, list fetched, bint squashed, Item violated)
    cpdef fill(self, list lines)
    @cython.locals(item=Item)
    cpdef complete(self, list items)
    @cython.locals(event=Event, last=Event, resolved=Item, squashes=cython.bint)
    cpdef bint resolve(self, list events) except? -1
    cpdef squash(self, Item item, told, dropped)
    @cython.locals(store=Item, violated=Item)
    cpdef Item clear(self, list events)
    @cython.locals(event=Event, item=Item, retired=list)
    cpdef retire(self, list events, bint ends)
    @cython.locals(item=Item)
    cpdef after_retire(self, list retired, bint ends)
    @cython.locals(steps=list, items=list, item=Item, place=cython.Py_ssize_t)
    cpdef issue(self, list events)
    @cython.locals(event=Event, item=Item, place=cython.Py_ssize_t)
    cpdef check_issue(self, list steps, list items)
    cpdef begins(self, Item item, Event event)
    cpdef close(self)
    @cython.locals(event=Event, steps=list, first=Event, last=Event)
    cpdef list steps(self, list events)
    @cython.locals(roomy=cython.bint, event=Event, item=Item)
    cpdef rename(self, list events)
    @cython.locals(front=Item)
    cpdef after_rename(self, long long number)
