# The types by which checks.py is compiled.
cimport cython
from wadrelwy.view.items cimport Item
from wadrelwy.view.pipeline cimport Pipeline
from wadrelwy.view.rows cimport Event


cdef class Checks:
    cdef public Pipeline pipeline
    cdef public object tell
    cdef public dict due, counters
    cdef public long long line, misaligned, mshrs, prefetches, base, behind
    cpdef fill(self, list lines)
    @cython.locals(item=Item)
    cpdef complete(self, list items)
    @cython.locals(last=cython.longlong, place=cython.longlong, event=Event)
    cpdef order(self, list steps)
    @cython.locals(names_told=list)
    cpdef resolve(self, Item item, list events)
    cpdef learn(self, Item item, bint taken, Event event)
    cpdef retired(self, Item item)
    @cython.locals(due=list)
    cpdef issued(self, Item item)
    @cython.locals(pipeline=Pipeline, lines=tuple, stores=list, hidden=Item, taken=cython.longlong, answer=str, found=str)
    cpdef access(self, Item item, Event event)
    @cython.locals(answer=str, found=str)
    cpdef finds(self, Item item, tuple lines)
    @cython.locals(store=Item)
    cpdef Item first_hidden(self, list stores)
    cpdef str found(self, long long line)
    @cython.locals(right=cython.bint, place=cython.Py_ssize_t, line=cython.longlong, size=cython.longlong)
    cpdef lines(self, Item item, tuple lines)
    @cython.locals(pipeline=Pipeline, left=cython.longlong)
    cpdef prefetch(self, Item item, Event event, tuple lines, long long taken)
    @cython.locals(store=Item, found=list)
    cpdef list older_stores(self, Item item)
    cpdef write(self, Item item, long long line, answer)
    cpdef unit(self, Item item, str name)
    cpdef division(self, Item item, long long time)
    cpdef squash(self, told, dropped)
