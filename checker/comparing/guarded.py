"""Memory to be lent, with nothing that may be touched beside it: a call that
reads or writes beyond it ends the process."""

import ctypes
import mmap
import os

PAGE = mmap.PAGESIZE
NOTHING = 0
READING = mmap.PROT_READ
WRITING = mmap.PROT_READ | mmap.PROT_WRITE

_C = ctypes.CDLL(None, use_errno=True)
_C.mprotect.argtypes = [ctypes.c_void_p, ctypes.c_size_t, ctypes.c_int]


def protect(address, size, how):
    if size and _C.mprotect(address, size, how):
        number = ctypes.get_errno()
        raise OSError(number, os.strerror(number))


class Pages:
    """So many pages between two that cannot be touched."""

    def __init__(self, count):
        self._size = count * PAGE
        self._memory = mmap.mmap(-1, self._size + 2 * PAGE)
        self.begin = PAGE + ctypes.addressof(
            ctypes.c_char.from_buffer(self._memory))
        self.end = self.begin + self._size
        protect(self.begin - PAGE, PAGE, NOTHING)
        protect(self.end, PAGE, NOTHING)

    def allow(self, how):
        protect(self.begin, self._size, how)


class Guarded:
    """A place for one buffer at a time, of any length. It stands right before
    a page that cannot be touched, or right behind one: what is no whole page
    cannot do both."""

    def __init__(self):
        self._pages = {}

    def put(self, data, writable, at_end):
        """The address of these bytes."""
        count = -(-len(data) // PAGE)
        if count not in self._pages:
            self._pages[count] = Pages(count)
        pages = self._pages[count]
        pages.allow(WRITING)
        address = pages.end - len(data) if at_end else pages.begin
        ctypes.memmove(address, data, len(data))
        if not writable:
            pages.allow(READING)
        return address
