"""Monitors and boards as bytes: a first line, what they hold, and a checksum that shows damage."""

import zlib


def seal(kind: str, held: bytes) -> bytes:
    """The bytes that are saved."""
    whole = f"duknavet {kind} 1\n".encode() + held
    return whole + zlib.crc32(whole).to_bytes(4, "little")


def opened(kind: str, saved: bytes) -> bytes:
    """What saved bytes hold. ValueError where they are of another kind, or damaged."""
    first = f"duknavet {kind} 1\n".encode()
    if not saved.startswith(first):
        raise ValueError(f"these bytes are no saved {kind}")
    whole, checksum = saved[:-4], saved[-4:]
    if zlib.crc32(whole).to_bytes(4, "little") != checksum:
        raise ValueError(f"the saved {kind} is damaged")
    return whole[len(first) :]
