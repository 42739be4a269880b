"""The files of a folder of evidence as they are read: none is opened that is not within the folder, each as far as its
limit."""
import hashlib
import os
import stat
from typing import IO, Optional

from ..runner import ToolError
from . import audit
from .layout import MOST_OF_OTHERS


def contents(name: str, most: int = MOST_OF_OTHERS) -> bytes:
    """The bytes of a file as far as the limit of its kind, and one more of a longer one; it ends with 3 where it
    cannot be read."""
    try:
        with open(name, "rb") as file:
            return file.read(most + 1)
    except (OSError, ValueError) as fault:
        raise ToolError(f"cannot read {audit.shown(name)}", 3) from fault


def checksum(content: bytes) -> str:
    """The SHA-256 checksum of some bytes."""
    return hashlib.sha256(content).hexdigest()


def opened_in(folder: int, name: str) -> int:
    """The descriptor of a plain file within a folder, which is given by its own; no link is followed on the way, nor
    is anything else opened. The last part of a name is the file, those before it are folders."""
    *above, last = name.split("/")
    here = os.dup(folder)
    try:
        for part in above:
            below = os.open(part, os.O_RDONLY | os.O_DIRECTORY | os.O_NOFOLLOW, dir_fd=here)
            os.close(here)
            here = below
        number = os.open(last, os.O_RDONLY | os.O_NOFOLLOW | os.O_NONBLOCK, dir_fd=here)
    finally:
        os.close(here)
    if not stat.S_ISREG(os.fstat(number).st_mode):
        os.close(number)
        raise OSError(0, "it is no plain file")
    return number


class NoRoomError(Exception):
    """Why a copy of a file cannot be written."""


def checksum_of(number: int, most: int, copy: Optional[IO[bytes]] = None) -> str:
    """The checksum of an open file, read block by block, as far as its limit; what is read is written to a copy where
    one is open."""
    with open(number, "rb", buffering=0) as file:
        digest, size = hashlib.sha256(), 0
        while block := file.read(1 << 20):
            size += len(block)
            if size > most:
                raise OSError(0, f"it is longer than {most:,} bytes")
            digest.update(block)
            if copy is not None:
                write_copy(copy, block)
    return digest.hexdigest()


def write_copy(copy: IO[bytes], block: bytes) -> None:
    """Writes a block. That it cannot be written is no fault of what is read."""
    try:
        left = memoryview(block)
        while left:
            left = left[copy.write(left) :]
    except OSError as fault:
        raise NoRoomError(fault.strerror) from fault
