# The types by which pipeline.py is compiled (compile.py); without that nothing asks for this file.
cimport cython
from wadrelwy.view.items cimport Code, Item
from wadrelwy.view.memory_side cimport Cache, Divider, Miss
from wadrelwy.view.rows cimport Event


cdef class Pipeline:
    cdef public object image, description, now
    cdef public Item last_squash
    cdef public long long filled, dropped, prefetched, from_second, mask, waiting
    cdef public long long cycle, version, depend, hit_latency, mul_latency, count, loads, stores
    cdef public bint futuristic, spectre, holds, delays, counts
    cdef public dict dues, misses, learnt, codes
    cdef public list queue, window, flight, ring, awake, open_stores, shadows, controls, outcomes, clearable, writers, fills
    cdef public Cache cache, second
    cdef public Divider divider
    @cython.locals(first=Item)
    cpdef bint is_hidden(self, Item root) except? -1
    cpdef bint is_held(self, Item writer) except? -1
    cpdef bint is_asked(self, Item item) except? -1
    cpdef bint is_kept(self, Item item) except? -1
    cpdef begin(self, cycle)
    @cython.locals(item=Item)
    cpdef Item entry(self, Event event)
    cpdef put(self, Item item)
    @cython.locals(other=Item, entry=Item, size=cython.Py_ssize_t)
    cpdef grow(self, Item item)
    @cython.locals(miss=Miss)
    cpdef fill(self, line)
    @cython.locals(consumer=Item)
    cpdef complete(self, Item item)
    cpdef bint faults(self, Item item) except? -1
    cpdef bint is_cleared(self, Item store) except? -1
    cpdef leave_shadows(self, Item item)
    @cython.locals(entries=list)
    cpdef resolve(self, Item item, outcome)
    cpdef long long squash(self, Item item) except? -1
    cpdef clear(self, Item store)
    cpdef long long bit_of(self, Item load) except? -1
    cpdef bint may_pass(self, Item load) except? -1
    cpdef long long violate(self, Item load) except? -1
    @cython.locals(queued=cython.longlong, dropped=list, gone=Item, entries=list, registers=set)
    cpdef long long drop_from(self, long long serial) except? -1
    cpdef drop(self, Item item)
    @cython.locals(entry=Item)
    cpdef find_writers(self, set registers)
    cpdef leave(self, Item item)
    @cython.locals(first=Item, entries=list)
    cpdef retire(self, Item item)
    cpdef write(self, Item item, line, answer)
    @cython.locals(name=str)
    cpdef issue(self, Item item, Event event)
    @cython.locals(store=Item)
    cpdef bint passes_a_store(self, Item load) except? -1
    cpdef issue_parts(self, Item item, str name)
    cpdef bint lacks_address(self, Item store) except? -1
    cpdef shares(self, Item load, Item store)
    cpdef bint may_take_two(self, Item load) except? -1
    @cython.locals(due=cython.longlong, later=cython.longlong, found=str, other=Event)
    cpdef access(self, Item item, Event event)
    cpdef prefetch(self, long long line, str answer)
    @cython.locals(miss=Miss)
    cpdef long long look(self, long long line, str answer) except? -1
    @cython.locals(from_memory=cython.bint, due=cython.longlong, lines=list)
    cpdef long long take(self, long long line, str answer) except? -1
    @cython.locals(item=Item)
    cpdef Item rename(self, long long serial, long long pc)
    @cython.locals(first=cython.Py_ssize_t, second=cython.Py_ssize_t, one=Item, two=Item)
    cpdef find_sources(self, Item item)
    cpdef enter_lists(self, Item item)
    cpdef bint hides(self, Item item) except? -1
    @cython.locals(item=Item, code=Code)
    cpdef Item fetch(self, long long pc)


@cython.locals(other=Event, lines=tuple)
cpdef tuple lines_of(Event event)


@cython.locals(place=cython.longlong, other=Item, serial=cython.longlong)
cpdef enter(list entries, Item item)


@cython.locals(popped=list, last=Item)
cpdef list pop_from(list entries, long long serial)


@cython.locals(entry=Item)
cpdef bint is_among(Item item, list entries) except? -1


