# The types by which slots.py is compiled.
cimport cython
from wadrelwy.view.items cimport Item, Wait
from wadrelwy.view.pipeline cimport Pipeline


cdef class Slots:
    cdef public Pipeline pipeline
    cdef public long long width, cycles, left, place
    cdef public dict lost, retired
    cdef public list kept, times
    cdef public object fill
    cdef public Item head
    @cython.locals(key=tuple)
    cpdef count(self, reason, pc, long long slots)
    cpdef squash(self, Item item)
    cpdef rename(self, Item item)
    cpdef stall(self, str reason, long long pc)
    @cython.locals(item=Item)
    cpdef note(self)
    cpdef note_again(self)
    @cython.locals(item=Item)
    cpdef Item oldest_asked(self)
    @cython.locals(place=cython.longlong)
    cpdef long long times_kept(self, Item item) except? -1
    @cython.locals(item=Item, head=Item)
    cpdef retire(self, list retired, bint ends)
    cpdef tuple empty(self, list retired)
    @cython.locals(wait=Wait)
    cpdef reason_of(self, Item head, list retired)
    @cython.locals(times=cython.longlong)
    cpdef executes(self, Item head)
    @cython.locals(head=Item, cycle=cython.longlong, last=Wait, begun=cython.bint)
    cpdef close(self)


cdef class Place:
    cdef public long long sum, most
    cpdef add(self, long long number)


cdef class Occupancy:
    cdef public list retired
    cdef public long long cycles
    cdef public Place window, waiting, loads, stores, queue, misses
    cpdef add(self, Pipeline pipeline, long long retired)
