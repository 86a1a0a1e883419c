"""What the first bytes of a file say of it: whether it is a capture, and whether it is packed.

A worker needs this module, which is sent to it: it imports the standard library alone.
"""

# Classic captures of microseconds and of nanoseconds, in either byte order; and pcapng.
CAPTURES = (b"\xd4\xc3\xb2\xa1", b"\x4d\x3c\xb2\xa1", b"\xa1\xb2\xc3\xd4", b"\xa1\xb2\x3c\x4d", b"\x0a\x0d\x0d\x0a")
# gzip, Zstandard, xz, lz4, bzip2.
PACKED = (b"\x1f\x8b", b"\x28\xb5\x2f\xfd", b"\xfd7zXZ\x00", b"\x04\x22\x4d\x18", b"BZh")
# So many bytes tell.
FRONT = 6


def is_capture(front: bytes) -> bool:
    return front.startswith((*CAPTURES, *PACKED))


def is_packed(front: bytes) -> bool:
    return front.startswith(PACKED)
