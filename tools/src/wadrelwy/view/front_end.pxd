# The types by which front_end.py is compiled.
cimport cython
from wadrelwy.view.items cimport Item
from wadrelwy.view.pipeline cimport Pipeline


cdef class Stall:
    cdef public long long first, last, pc
    cdef public object reason


cdef class FrontEnd:
    cdef public Pipeline pipeline
    cdef public object tell, last_rename, last_fetch
    cdef public dict rename, fetch, known_ways
    cdef public tuple ways
    cdef public long long width, rob, stations, loads, stores, room
    cdef public list stalls
    cdef public bint fetching
    cpdef count(self, dict counter, reason)
    @cython.locals(stall=Stall)
    cpdef repeat(self, long long cycle)
    @cython.locals(pipeline=Pipeline, first=Item)
    cpdef to_rename(self, Item item)
    @cython.locals(pipeline=Pipeline, width=cython.longlong, first=Item)
    cpdef bint has_room(self) except? -1
    @cython.locals(first=Item)
    cpdef bint call_is_next(self) except? -1
    cpdef before_rename(self, serial)
    @cython.locals(front=Item)
    cpdef after_rename(self, long long count)
    @cython.locals(last=Stall, cycle=cython.longlong)
    cpdef keep_stall(self, reason, long long pc)
    @cython.locals(width=cython.longlong, number=cython.longlong, last=Item, item=Item)
    cpdef after_fetch(self, list fetched, bint squashed)
    @cython.locals(ways=tuple)
    cpdef tuple ways_of(self, long long pc)
    cpdef tuple ways_behind(self, Item item)
