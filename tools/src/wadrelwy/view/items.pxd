# The types by which items.py is compiled.
cimport cython


cdef class Item


@cython.freelist(64)
cdef class Wait:
    cdef public long long first, last, serial, pc
    cdef public object reason
    cpdef begin(self, long long cycle, reason, Item cause)


cdef class Code:
    cdef public object instruction
    cdef public str kind, event
    cdef public tuple registers
    cdef public long long destination, port, source_one, source_two
    cdef public bint is_load, is_store, is_control, at_once, divides, is_return


@cython.freelist(256)
cdef class Item:
    cdef public long long number, pc, fetched, awaits, destination, serial, address_at, data_at, from_one, from_two
    cdef public long long lacking_at, lacking, port, source_one, source_two
    cdef public str kind, event
    cdef public bint divides, is_return
    cdef public bint mispredicted, passed, violated, is_load, is_store, is_control, at_once, waiting, goes, address_goes, data_goes
    cdef public object code, renamed, ready, issued, unit, due, done, resolved, outcome
    cdef public object retired, squashed, trapped, written, output, consumers, cleared, fill, waits, sharers, value
    cdef public tuple registers, lines
    cdef public Item one, two, root_one, root_two, root, youngest_root
    cdef public Wait open
    cpdef fetch(self, long long number, long long pc, long long cycle, Code code)
    @cython.locals(root=Item)
    cpdef add_source(self, Item writer)
    @cython.locals(last=Wait, serial=cython.longlong)
    cpdef wait(self, long long cycle, reason, Item cause)
    cpdef sleep(self)
    @cython.locals(last=Wait)
    cpdef wake(self, long long cycle)
    cpdef forget(self)
