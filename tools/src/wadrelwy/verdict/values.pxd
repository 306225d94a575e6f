# The types by which values.py is compiled.
cimport cython
from wadrelwy.riscv.arithmetic cimport Decoded
from wadrelwy.verdict.hart cimport Memory
from wadrelwy.view.items cimport Item
from wadrelwy.view.pipeline cimport Pipeline
from wadrelwy.view.rows cimport Event


cdef class Retired:
    cdef public long long result
    cdef public bint mark
    cdef public object chain
    cpdef set(self, long long result, bint mark, chain=*)


cdef class Value(Retired):
    cdef public Decoded decoded
    cdef public Retired one, two
    cdef public long long pc, address, stored, first, behind
    cdef public object fault
    cdef public bint taken
    cpdef begin(self, Decoded decoded, long long pc, Retired one, Retired two)
    cpdef bint is_marked(self) except? -1
    cpdef marked_chain(self)
    cpdef bint covers(self, long long address) except? -1


@cython.locals(made=Retired)
cpdef Retired retired(long long result, bint mark, chain=*)


cpdef handed_on(chain, long long pc)


cpdef long long known(Retired value) except? -2


cdef class Valued(Pipeline):
    cdef public Memory memory
    cdef public list registers, marked_registers, kept, to_write, stores_in_flight
    cdef public dict marked_bytes, decoded
    cdef public long long line
    cdef public bint found_mark
    cdef public object found_chain
    @cython.locals(item=Item, decoded=Decoded, one=Retired, two=Retired, value=Value)
    cpdef Item rename(self, long long serial, long long pc)
    @cython.locals(value=Value, decoded=Decoded)
    cpdef Value located(self, Item item)
    @cython.locals(value=Value)
    cpdef issue(self, Item item, Event event)
    @cython.locals(lines=list, line=cython.longlong)
    cpdef load(self, Item item, Value value, Event event)
    cpdef compare(self, Item item, Event event)
    @cython.locals(decoded=Decoded, a=cython.longlong, b=cython.longlong)
    cpdef execute(self, Value value)
    @cython.locals(stores=list, marks=dict, number=cython.longlong, mark=cython.bint, address=cython.longlong, store=Value)
    cpdef long long found(self, Item load, long long first, long long behind) except? -2
    @cython.locals(found=list, store=Item, value=Value)
    cpdef list stores_before(self, Item load, long long first, long long behind)
    @cython.locals(value=Value)
    cpdef bint loads_marked(self, Item load) except? -1
    @cython.locals(value=Value, decoded=Decoded)
    cpdef bint would_load_marked(self, Item load, long long base) except? -1
    @cython.locals(one=Value, two=Value)
    cpdef shares(self, Item load, Item store)
    @cython.locals(last=cython.longlong, low=cython.longlong, high=cython.longlong)
    cpdef list lines_of(self, Value value)
    cpdef bint may_take_two(self, Item load) except? -1
    @cython.locals(value=Value)
    cpdef bint faults(self, Item item) except? -1
    @cython.locals(value=Value)
    cpdef resolve(self, Item item, outcome)
    cpdef leave(self, Item item)
    @cython.locals(value=Value)
    cpdef retire(self, Item item)
    cpdef keep(self, long long register, long long result, bint mark, chain=*)
    cpdef write(self, Item item, line, answer)


@cython.locals(store=Value)
cpdef Value covering(list stores, long long address)
