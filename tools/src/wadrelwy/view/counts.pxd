# The types by which counts.py is compiled.
cimport cython
from wadrelwy.view.items cimport Item, Wait


cdef class Counts:
    cdef public long long fetched, renamed, squashed, retired, output, two_lines, cleared
    cdef public dict units, wrong
    cdef public object resolved, mispredicted, stores, held, held_cycles, held_dropped, passed, violated, waited
    @cython.locals(item=Item)
    cpdef add_all(self, list items)
    @cython.locals(retired=cython.bint)
    cpdef add(self, Item item)
    cpdef add_resolved(self, Item item)
    @cython.locals(wait=Wait)
    cpdef add_load(self, Item item)
    @cython.locals(wait=Wait, cycles=cython.longlong)
    cpdef add_held(self, Item item)


@cython.locals(counts=Counts)
cpdef count(batches, holds=*, places=*)
