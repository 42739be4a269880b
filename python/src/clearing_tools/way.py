"""The way to a file that is written, step by step: no step is a link of another user, and what another user puts in the
place of a step later changes nothing."""
import contextlib
import os
import stat
from typing import Optional

from .runner import ToolError

MOST_LINKS = 40
STEP = os.O_PATH | os.O_DIRECTORY | os.O_NOFOLLOW | os.O_CLOEXEC


class Way:
    """The way to a file, step by step: `folder` is the descriptor of the folder that it stands in, and `last` its name
    there, which is that of no link. Folders that are not there are made where `undo` is given, which removes them
    again."""

    def __init__(self, name: str, undo: Optional[contextlib.ExitStack] = None) -> None:
        self.name, self.undo = name, undo
        self.links = 0
        # The folders that were gone through, the last of which is here, and the names that are left.
        self.steps = [os.open("/" if os.path.isabs(name) else ".", STEP)]
        self.left = [part for part in name.split("/")[::-1] if part not in ("", ".")]
        self.last = "."
        try:
            self.go()
        except BaseException:
            self.close()
            raise

    @property
    def folder(self) -> int:
        """The descriptor of the folder in which the file stands."""
        return self.steps[-1]

    def close(self) -> None:
        """Lets go of all folders."""
        while self.steps:
            os.close(self.steps.pop())

    def go(self) -> None:
        """Goes as far as the last name."""
        while self.left:
            part = self.left.pop()
            if part == "..":
                self.up()
            elif not self.follow(part):
                if not self.left:
                    self.last = part
                else:
                    self.enter(part)

    def up(self) -> None:
        """Goes back a step; above the first, to the folder that it stands in."""
        above = os.open("..", STEP, dir_fd=self.folder) if len(self.steps) == 1 else None
        os.close(self.steps.pop())
        if above is not None:
            self.steps.append(above)

    def follow(self, part: str) -> bool:
        """Whether a name is that of a link, whose target is then what is left to go. The link is looked at and read by
        one descriptor."""
        try:
            number = os.open(part, os.O_PATH | os.O_NOFOLLOW | os.O_CLOEXEC, dir_fd=self.folder)
        except OSError:
            return False
        try:
            about = os.fstat(number)
            if not stat.S_ISLNK(about.st_mode):
                return False
            self.links += 1
            if is_others(about) or self.links > MOST_LINKS:
                raise ToolError(f"cannot write {self.name}: {part} is a link of another user")
            target = os.readlink("", dir_fd=number)
        finally:
            os.close(number)
        if target.startswith("/"):
            self.close()
            self.steps.append(os.open("/", STEP))
        self.left += [each for each in target.split("/")[::-1] if each not in ("", ".")]
        return True

    def enter(self, part: str) -> None:
        """Goes into a folder, which is made where it is not there."""
        try:
            number = os.open(part, STEP, dir_fd=self.folder)
        except FileNotFoundError:
            if self.undo is None:
                raise
            os.mkdir(part, dir_fd=self.folder)
            above = os.dup(self.folder)
            self.undo.callback(remove_folder, part, above)
            number = os.open(part, STEP, dir_fd=self.folder)
        self.steps.append(number)

    def about(self) -> Optional[os.stat_result]:
        """What stands at the end of the way, if anything."""
        try:
            return os.stat(self.last, dir_fd=self.folder, follow_symlinks=False)
        except FileNotFoundError:
            return None


def is_others(about: os.stat_result) -> bool:
    """Whether what stands somewhere is neither this user's nor the system's."""
    return about.st_uid not in (0, os.geteuid())


def remove_folder(name: str, above: int) -> None:
    """Removes a folder where it is there and empty, and lets go of the one above it."""
    with contextlib.suppress(OSError):
        os.rmdir(name, dir_fd=above)
    os.close(above)
