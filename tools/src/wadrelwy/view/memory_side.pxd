cdef class Miss:
    cdef public long long due
    cdef public bint from_memory

cdef class Cache:
    cdef public long long line, ways
    cdef public list sets
    cpdef list set_of(self, long long line)
    cpdef bint has(self, long long line) except? -1
    cpdef touch(self, long long line)
    cpdef object fill(self, long long line)

cdef class Divider:
    cdef public object user
    cdef public long long free_from
    cpdef take(self, object item, long long until)
    cpdef drop_from(self, long long serial)
