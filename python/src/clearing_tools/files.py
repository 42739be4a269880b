"""How the tools read and write files: texts as editors and spreadsheets leave them; no input is written over, and all
files are written or none, each by the descriptor of its folder, to which `way` leads."""
import contextlib
import errno
import io
import os
import pathlib
import re
import secrets
import shutil
import stat
import sys
from typing import IO, Iterable, Iterator, List, Mapping, Optional, Sequence, Tuple, Union

from .runner import StrPath, ToolError
from .way import Way, is_others

Content = Union[str, bytes, IO[bytes]]
Contents = Union[Mapping[str, Content], Mapping[pathlib.Path, Content], Iterable[Tuple[StrPath, Content]]]
NEW = os.O_WRONLY | os.O_CREAT | os.O_EXCL | os.O_CLOEXEC


def text_of(name: StrPath) -> str:
    """The text of a file, without the byte order mark and with the line ends LF that editors and spreadsheets change.
    Fails where it cannot be read, or is not UTF-8."""
    try:
        return bytes_of(name).decode("utf-8-sig").replace("\r\n", "\n")
    except (OSError, ValueError) as fault:
        raise ToolError(f"{name}: cannot be read: {fault}") from fault


MOST_BYTES = 400_000_000
"""No file of a network is longer, by the wide limits either, and no text of the program but a journal, what `stress`
prints of several scenarios, and the pairs of banks of `impact` and `rescues`."""


def bytes_of(name: StrPath, most: int = MOST_BYTES) -> bytes:
    """The bytes of a file. Fails where there are more than that."""
    with open(name, "rb") as file:
        return bytes_in(file, most)


def bytes_in(file: IO[bytes], most: int = MOST_BYTES) -> bytes:
    """What is left of a file that is open. Fails where that is more, or the file longer."""
    content = io.BytesIO()
    while block := file.read(1 << 20):
        content.write(block)
        if content.tell() > most or os.fstat(file.fileno()).st_size > most:
            raise OSError(errno.EFBIG, f"it is longer than {most:,} bytes")
    return content.getvalue()


def in_quotes(value: object) -> str:
    """A field of a record, in quotes where it needs them."""
    text = str(value)
    return '"' + text.replace('"', '""') + '"' if any(c in text for c in ',"\r\n') else text


def csv_text(records: Iterable[Iterable[object]]) -> str:
    """Records with commas between their fields. No name of a bank has a comma, a quote or an end of a line."""
    return "".join(",".join(map(str, record)) + "\n" for record in records)


def put(
    content: Union[str, bytes],
    output: Optional[StrPath] = None,
    inputs: Sequence[Optional[StrPath]] = (),
    status: int = 1,
    folders: bool = True,
) -> None:
    """Writes a text, or bytes, to a file whole or not at all, and never over an input; or to standard output where
    there is no name. Fails with this status."""
    if output is not None:
        try:
            write_all([(output, content)], inputs, folders)
        except ToolError as fault:
            raise fault.with_status(status) from fault
        return
    try:
        with open(1, "wb", closefd=False) as out:
            out.write(content.encode() if isinstance(content, str) else content)
    except OSError as fault:
        raise ToolError(f"cannot write the output: {fault.strerror}", status) from fault


def write_all(texts: Contents, inputs: Sequence[Optional[StrPath]] = (), folders: bool = True) -> None:
    """Writes a text, bytes, or what a file that is open has, to each of some files, given by a dict or by pairs; their
    folders are made where they are not there, unless `folders` is false.

    Fails at two names for one file, a file that is one of the inputs (by any name or link), a folder, a file that may
    not be written, and a link or a pipe of another user. A file of one's own keeps its mode, without setuid; a new one
    is for nobody to read who may not read all inputs. It is written beside its place and moved there when all are
    written, so that a fault leaves each file as it was. A stream, such as /dev/stdout, is written before anything is
    moved. A link of one's own or the system's is followed."""
    pairs: Iterable[Tuple[StrPath, Content]] = texts.items() if isinstance(texts, Mapping) else texts
    contents = [(os.fspath(name), text.encode() if isinstance(text, str) else text) for name, text in pairs]
    check_apart([name for name, _ in contents], [os.fspath(name) for name in inputs if name is not None])
    with contextlib.ExitStack() as closing, contextlib.ExitStack() as undo:
        mode = 0o666 & ~mask_of(inputs)
        ready = [Ready(name, text, undo, closing, mode, folders) for name, text in contents if not is_stream(name)]
        for name, text in contents:
            if is_stream(name):
                write_stream(name, text)
        for file in ready:
            file.move(undo)
        undo.pop_all()
        for file in ready:
            file.forget()


def check_apart(names: Sequence[str], inputs: Sequence[str] = ()) -> None:
    """Fails at a file that is named twice, that is read, or that is a folder."""
    seen: List[str] = []
    for name in names:
        check_own(name)
        if is_stream(name):
            continue
        if os.path.isdir(name) or name.endswith("/") or not name:
            raise ToolError(f"cannot write {name or 'a file without a name'}: it is a folder")
        for other in seen:
            if is_same(name, other):
                raise ToolError(f"{other} and {name} are one file; nothing is written")
        for other in inputs:
            if is_same(name, other):
                raise ToolError(f"{name} is also read; nothing is written over it")
        seen.append(name)


def is_same(one: str, other: str) -> bool:
    """Whether two names are those of one file."""
    try:
        return os.path.samefile(one, other)
    except OSError:
        return os.path.realpath(one) == os.path.realpath(other)


DESCRIPTOR = re.compile(r"/dev/(stdin|stdout|stderr|fd/[0-9]+)|/proc/(self|thread-self|[0-9]+)/fd/[0-9]+")


def is_stream(name: StrPath) -> bool:
    """Whether a name is that of an open descriptor, a pipe or a character device."""
    try:
        mode = os.stat(name).st_mode
    except OSError:
        return False
    is_open = DESCRIPTOR.fullmatch(os.path.abspath(name)) and not stat.S_ISDIR(mode)
    return bool(is_open) or stat.S_ISCHR(mode) or stat.S_ISFIFO(mode)


def check_own(name: str) -> None:
    """Fails at a link of another user on the way to a file, and at what is neither a file nor a stream, or a pipe of
    another user."""
    if DESCRIPTOR.fullmatch(os.path.abspath(name)):
        return
    try:
        with contextlib.closing(Way(name)) as way:
            about = way.about()
    except (OSError, ValueError):
        # It is told where it is to be written.
        return
    if about is not None:
        check_kind(name, about)


def check_kind(name: str, about: os.stat_result) -> None:
    """Fails at what is neither a file nor a stream, or a pipe of another user."""
    if stat.S_ISFIFO(about.st_mode) and is_others(about):
        raise ToolError(f"cannot write {name}: it is a pipe of another user")
    if stat.S_ISBLK(about.st_mode) or stat.S_ISSOCK(about.st_mode):
        raise ToolError(f"cannot write {name}: it is no file")


READ: List[str] = []
"""Inputs of the tool beside those that are named with a file."""


def mask_of(inputs: Iterable[Optional[StrPath]] = ()) -> int:
    """What a new file that is made of some inputs is not to be allowed: what this user's mask says, and for whom one
    of them is not to be read."""
    # It is one for all threads: what another one makes meanwhile is for nobody else.
    mask = os.umask(0o077)
    os.umask(mask)
    for name in [name for name in (*inputs, *READ) if name is not None]:
        with contextlib.suppress(OSError, ValueError):
            about = os.stat(name)
            if stat.S_ISREG(about.st_mode):
                mask |= sum(group for group in (0o070, 0o007) if not about.st_mode & group & 0o044)
    return mask


def write_stream(name: str, content: Union[bytes, IO[bytes]]) -> None:
    """Writes to a stream or a device. One that is open is written as it is, so that what others write to it stands
    behind."""
    with naming(name):
        for stream in (sys.stdout, sys.stderr):
            if stream is not None:
                stream.flush()
        number = descriptor_of(name)
        with opened_stream(name) if number is None else open(number, "wb", closefd=False) as file:
            put_into(file, content)


def opened_stream(name: str) -> IO[bytes]:
    """A pipe or a device, opened by the descriptor of its folder; what stands there by then is no file of another
    kind."""
    if DESCRIPTOR.fullmatch(os.path.abspath(name)):
        return open(name, "ab")
    with contextlib.closing(Way(name)) as way:
        number = os.open(way.last, os.O_WRONLY | os.O_APPEND | os.O_NOFOLLOW | os.O_NOCTTY, dir_fd=way.folder)
    file = open(number, "wb")
    about = os.fstat(number)
    if not (stat.S_ISCHR(about.st_mode) or stat.S_ISFIFO(about.st_mode) and not is_others(about)):
        file.close()
        raise OSError(errno.EINVAL, "it is no stream any more")
    return file


def put_into(file: IO[bytes], content: Union[bytes, IO[bytes]]) -> None:
    """Writes bytes, or what a file that is open has, which is not held at once."""
    if isinstance(content, bytes):
        file.write(content)
        return
    content.seek(0)
    shutil.copyfileobj(content, file)


def descriptor_of(name: str) -> Optional[int]:
    """The number of the open stream that a name means, such as 1 for /dev/stdout, or nothing."""
    named = re.fullmatch(r"/(?:dev|proc/self)/fd/([0-9]{1,4})", os.path.abspath(name))
    for number in ([int(named[1])] if named else []) + [1, 2]:
        with contextlib.suppress(OSError):
            if os.path.samestat(os.stat(name), os.fstat(number)):
                return number
    return None


@contextlib.contextmanager
def naming(name: str) -> Iterator[None]:
    """A fault of the system becomes a message with the name of the file."""
    try:
        yield
    except (OSError, ValueError) as error:
        raise ToolError(f"cannot write {name}: {getattr(error, 'strerror', None) or error}") from error


def remove(name: str, folder: int) -> None:
    """Removes a file of a folder where it is there."""
    with contextlib.suppress(OSError):
        os.unlink(name, dir_fd=folder)


class Ready:
    """A file that is written beside its place, and not moved there yet."""

    def __init__(
        self,
        name: str,
        content: Union[bytes, IO[bytes]],
        undo: contextlib.ExitStack,
        closing: contextlib.ExitStack,
        mode: int,
        folders: bool = True,
    ) -> None:
        self.name = name
        self.part = f".part-{secrets.token_hex(8)}"
        self.kept: Optional[str] = None
        with naming(name):
            self.way = closing.enter_context(contextlib.closing(Way(name, undo if folders else None)))
            about = self.way.about()
            if about is not None:
                check_kind(name, about)
                if not os.access(self.way.last, os.W_OK, dir_fd=self.way.folder):
                    raise PermissionError(13, "Permission denied")
            number = os.open(self.part, NEW, 0o600, dir_fd=self.way.folder)
            undo.callback(remove, self.part, self.way.folder)
            with open(number, "wb") as file:
                put_into(file, content)
                os.fchmod(number, self.mode(about, mode))

    def mode(self, about: Optional[os.stat_result], new: int) -> int:
        """The mode of the file of one's own that stands there, without setuid, or that of a new one."""
        is_own = about is not None and about.st_uid == os.geteuid()
        return stat.S_IMODE(about.st_mode) & 0o777 if about is not None and is_own else new

    def replace(self, old: str, new: str) -> None:
        """Gives a file of the folder another name there."""
        os.replace(old, new, src_dir_fd=self.way.folder, dst_dir_fd=self.way.folder)

    def move(self, undo: contextlib.ExitStack) -> None:
        """Moves the file into its place. What stood there comes back where a later step fails."""
        with naming(self.name):
            if self.way.about() is None:
                self.replace(self.part, self.way.last)
                undo.callback(remove, self.way.last, self.way.folder)
                return
            self.kept = f"{self.part}-kept"
            undo.callback(remove, self.kept, self.way.folder)
            self.keep(self.kept)
            self.replace(self.part, self.way.last)
            undo.callback(self.replace, self.kept, self.way.last)

    def keep(self, name: str) -> None:
        """Has what stands there under another name too."""
        folder = self.way.folder
        try:
            os.link(self.way.last, name, src_dir_fd=folder, dst_dir_fd=folder, follow_symlinks=False)
        except FileExistsError:
            raise
        except OSError:
            old = os.open(self.way.last, os.O_RDONLY | os.O_NOFOLLOW | os.O_NONBLOCK, dir_fd=folder)
            with open(old, "rb") as before:
                new = os.open(name, NEW, 0o600, dir_fd=folder)
                with open(new, "wb") as copy:
                    shutil.copyfileobj(before, copy)
                    os.fchmod(new, stat.S_IMODE(os.fstat(old).st_mode))

    def forget(self) -> None:
        """Removes what stood there before."""
        if self.kept:
            remove(self.kept, self.way.folder)
