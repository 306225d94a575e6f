# The types by which hart.py is compiled.
cimport cython
from wadrelwy.riscv.arithmetic cimport Decoded


cdef class Memory:
    cdef public long long base
    cdef public bytearray data
    cdef public bint misaligned
    cpdef bint holds(self, long long address, long long size) except? -1
    cpdef fault(self, str kind, long long address, long long size)
    cpdef bytes get(self, long long address, long long size)
    cpdef put(self, long long address, data)
    @cython.locals(number=cython.longlong, place=cython.Py_ssize_t)
    cpdef long long number(self, long long address, long long size) except? -2
    @cython.locals(place=cython.Py_ssize_t)
    cpdef put_number(self, long long address, long long size, long long number)


cdef class Hart:
    cdef public dict code, decoded
    cdef public Memory memory
    cdef public bint passing
    cdef public long long pc, retired, last, address, size
    cdef public list registers, out
    cdef public object end, fault
    @cython.locals(found=dict, decoded=Decoded, address=cython.longlong)
    cpdef dict loads(self, long long steps)
    @cython.locals(decoded=Decoded)
    cpdef step(self)
    @cython.locals(pc=cython.longlong, registers=list, decoded=Decoded, a=cython.longlong, b=cython.longlong)
    cpdef Decoded advance(self)
    cpdef Decoded other(self, Decoded decoded, long long a, long long b)
    cpdef Decoded trap(self, long long cause)
    cpdef Decoded go_on(self, Decoded decoded, long long following, value)
    cpdef Decoded access(self, Decoded decoded, long long address, long long stored)
    cpdef Decoded call(self, Decoded decoded)
