#!/usr/bin/env python3
"""Each call of the library for C given NULL for each of its pointers: the code is its own, and nothing has changed."""

import ctypes

import vdcp

NULL, SIZE, TEXT = 106, ctypes.c_size_t, ctypes.c_char_p


def is_pointer(it):
    return it is TEXT or hasattr(it, "_type_") and not isinstance(it._type_, str)


for name in vdcp._CALLS:
    call = getattr(vdcp._vdcp, f"vdcp_{name}")
    for k in (k for k, it in enumerate(call.argtypes) if is_pointer(it)):
        # (zeros that a pointer may point to, a count of one, and other numbers of zero)
        values = [b"\0" if it is TEXT else (it._type_ * 64)() if is_pointer(it) else int(it is SIZE) for it in call.argtypes]
        values[k] = None
        assert call(*values) == NULL, (name, k)
        assert not any(any(bytes(it)) for it in values if isinstance(it, ctypes.Array)), (name, k)
        if call.argtypes[k + 1 : k + 2] == [SIZE]:
            values[k + 1] = 0
            assert call(*values) != NULL, (name, k)
