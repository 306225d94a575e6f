# The types by which arithmetic.py is compiled. Words are taken without a sign: what they make is so modulo 2^64.
cimport cython

cdef unsigned long long ONES


cdef class Decoded:
    cdef public object operation
    cdef public str name, kind
    cdef public long long imm, one, two, destination, size
    cdef public bint has_value, has_two, is_branch, is_load, is_store, has_sign
    cpdef unsigned long long value(self, unsigned long long a, unsigned long long b) except? 0xdead
    cpdef bint is_taken(self, unsigned long long a, unsigned long long b) except? -1
    cpdef long long extended(self, long long value) except? -2


cpdef long long of_word(unsigned long long value)


@cython.locals(value=cython.ulonglong)
cpdef unsigned long long value_of(str name, unsigned long long a, unsigned long long b) except? 0xdead


cdef unsigned long long product_of(str name, unsigned long long a, unsigned long long b) except? 0xdead


@cython.locals(size=cython.longlong)
cdef long long quotient(long long a, long long b) except? -2


cpdef bint takes(str name, unsigned long long a, unsigned long long b) except? -1
