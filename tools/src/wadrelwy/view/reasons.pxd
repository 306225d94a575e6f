# The types by which reasons.py is compiled.
cimport cython
from wadrelwy.view.items cimport Item, Wait
from wadrelwy.view.pipeline cimport Pipeline
from wadrelwy.view.rows cimport Event


cdef class Reasons:
    cdef public Pipeline pipeline
    cdef public object description
    cdef public tuple last_idle
    cdef public list unexplained, issued
    cdef public set presumed
    cdef public Item head, cause
    cdef public dict idle
    cdef public bytearray ports, free_ports
    cdef public bint futuristic, results_held, delays, misaligned
    cdef public long long version, width, mshrs
    cpdef wait(self, Item item, reason, Item cause)
    @cython.locals(item=Item, root=Item)
    cpdef resolve(self, resolved, bint squashes)
    @cython.locals(root=Item)
    cpdef Item tainted_root(self, Item item)
    cpdef Item hider(self, Item item)
    cpdef bint is_delayed(self, Item item) except? -1
    @cython.locals(store=Item, root=Item, hidden=cython.bint)
    cpdef clear(self, cleared)
    @cython.locals(pipeline=Pipeline, cycle=cython.longlong, awake=list, kept=cython.Py_ssize_t, item=Item, stays=cython.bint)
    cpdef issue(self, list issued)
    @cython.locals(cause=Item)
    cpdef renamed(self, Item item)
    cpdef rouse(self, Item item)
    cpdef bint issue_whole(self, Item item, bint goes, long long cycle) except? -1
    cpdef bint is_held_back(self, Item writer) except? -1
    @cython.locals(writer=Item)
    cpdef Item held_back(self, Item item)
    @cython.locals(address=str, data=str, lacks_address=cython.bint, lacks_data=cython.bint)
    cpdef bint issue_parts(self, Item item) except? -1
    @cython.locals(place=cython.Py_ssize_t, reason=str)
    cpdef str to_issue_part(self, Item item, str part, Item writer, bint goes)
    cpdef bint may_be_held_back(self, Item writer, bint goes) except? -1
    cpdef bint may_be_delayed(self, Item store, bint goes) except? -1
    cpdef keep(self, Item item, bint goes, str reason, Item cause)
    @cython.locals(reason=str)
    cpdef str to_issue(self, Item item, bint goes)
    @cython.locals(store=Item, found=str, waits=cython.bint)
    cpdef str behind_stores(self, Item load, bint taint=*)
    cpdef shares(self, Item load, Item store)
    cpdef check_sharers(self, Item load, list stores)
    cpdef list older_open_stores(self, Item load)
    @cython.locals(stores=list, lacks=cython.longlong)
    cpdef str tried(self, Item load, bint goes)
    @cython.locals(left=cython.longlong)
    cpdef long long lacks(self, Item load) except? -1
    @cython.locals(store=Item, found=list)
    cpdef list may_share(self, Item load)
    @cython.locals(expected=cython.longlong, number=cython.longlong, event=Event)
    cpdef retire(self, list retired, bint ends)
    @cython.locals(turns=cython.longlong, stores=cython.longlong, item=Item)
    cpdef long long to_retire(self) except? -1
    @cython.locals(head=Item, squash=Item)
    cpdef explain_idle(self, bint ends)
    @cython.locals(head=Item, wait=Wait)
    cpdef explain_head(self)
    cpdef count_idle(self, reason, pc)
    @cython.locals(pipeline=Pipeline, entries=list, item=Item, wait=Wait)
    cpdef repeat(self, long long cycle)


cpdef Item awaited(Item item)
