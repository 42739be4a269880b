"""Builds the package: a backend of PEP 517 and PEP 660 in a few lines, so that pip needs no network for one.

It writes wheels of pure Python from `src/`, what is said in the table `project` of `pyproject.toml`, and `README.md`;
and, with the setting `program`, or by

    python3 build.py FOLDER PROGRAM

a wheel with the program itself, for Linux on x86-64 and the glibc that it wants. The command `clearing` of such a wheel
is the program, and not a script that would have to find it. Each wheel has the number of the release, by which the
tools call the program.
"""
import base64
import gzip
import hashlib
import io
import pathlib
import re
import sys
import tarfile
import zipfile
from typing import IO, Dict, List, Mapping, Optional, Union, cast

HERE = pathlib.Path(__file__).resolve().parent

Folder = Union[str, pathlib.Path]
Settings = Optional[Mapping[str, str]]
"""What pip is told by --config-settings."""


def table(name: str) -> str:
    """The lines of a table of `pyproject.toml`."""
    text = (HERE / "pyproject.toml").read_text(encoding="utf-8")
    return text.partition(f"[{name}]\n")[2].partition("\n[")[0]


def project() -> Dict[str, str]:
    """The texts of the table `project`, each a line `key = "value"`."""
    return dict(re.findall(r'^([a-z-]+) = "([^"\\]*)"$', table("project"), re.MULTILINE))


def commands() -> str:
    """The commands and the functions that they call, each a line `name = module:function`."""
    found = re.findall(r'^([a-z-]+) = "([\w.:]+)"$', table("project.scripts"), re.MULTILINE)
    return "".join(f"{name} = {function}\n" for name, function in found)


def extras() -> Dict[str, List[str]]:
    """The packages that a tool wants where it is to do all that it can, by the names of the sets."""
    found = re.findall(r"^([a-z]+) = \[(.*)\]$", table("project.optional-dependencies"), re.MULTILINE)
    return {name: re.findall('"([^"]*)"', line) for name, line in found}


def full_name() -> str:
    """The name and version, as wheels have them."""
    return f"{project()['name']}-{project()['version']}"


def metadata() -> str:
    """What is installed beside the package about it."""
    told = project()
    fields = [("Metadata-Version", "2.1"), ("Name", told["name"]), ("Version", told["version"])]
    fields += [("Summary", told["description"]), ("Requires-Python", told["requires-python"])]
    fields += [("Description-Content-Type", "text/markdown")]
    for extra, wanted in extras().items():
        fields += [("Provides-Extra", extra), *(("Requires-Dist", f"{each}; extra == '{extra}'") for each in wanted)]
    readme = (HERE / told["readme"]).read_text(encoding="utf-8")
    return "".join(f"{name}: {value}\n" for name, value in fields) + "\n" + readme


def sources() -> Dict[str, bytes]:
    """The files of the package by their places in a wheel."""
    paths = sorted(path for path in (HERE / "src").rglob("*") if path.is_file() and "__pycache__" not in path.parts)
    files = {path.relative_to(HERE / "src").as_posix(): path.read_bytes() for path in paths}
    return {**files, RELEASE: release().read_bytes()}


def release() -> pathlib.Path:
    """The file with the number of the release: the repository's, or the one that an archive of the sources has."""
    own = HERE / "VERSION"
    return own if own.is_file() else HERE.parent / "VERSION"


# Where a wheel has the number of the release, and the program.
RELEASE, PLACE = "clearing_tools/VERSION", "clearing_client/bin/clearing"


def command_place() -> str:
    """Where a wheel has what is installed among the commands as it is: the program."""
    return f"{full_name()}.data/scripts/clearing"


def tag_of(program: bytes) -> str:
    """The tag of a wheel with a program: that of the least glibc that has all that it names. A ValueError where it is
    no program of Linux."""
    if program[:4] != b"\x7fELF":
        raise ValueError("the program of a wheel is no program of Linux")
    versions = [(int(major), int(minor)) for major, minor in re.findall(rb"GLIBC_([0-9]+)\.([0-9]+)", program)]
    return "py3-none-manylinux_{}_{}_x86_64".format(*max(versions, default=(2, 17)))


def write_wheel(folder: Folder, contents: Mapping[str, bytes], tag: str = "py3-none-any") -> str:
    """Writes a wheel of files by their places in it into a folder, and gives its name."""
    info, files = f"{full_name()}.dist-info", dict(contents)
    files[f"{info}/METADATA"] = metadata().encode()
    files[f"{info}/entry_points.txt"] = f"[console_scripts]\n{commands()}".encode()
    pure = "false" if PLACE in files else "true"
    kind = f"Wheel-Version: 1.0\nGenerator: clearing_client build\nRoot-Is-Purelib: {pure}\nTag: {tag}\n"
    files[f"{info}/WHEEL"] = kind.encode()
    lines = [f"{name},sha256={digest(data)},{len(data)}\n" for name, data in files.items()]
    files[f"{info}/RECORD"] = ("".join(lines) + f"{info}/RECORD,,\n").encode()
    wheel = f"{full_name()}-{tag}.whl"
    with zipfile.ZipFile(pathlib.Path(folder) / wheel, "w", zipfile.ZIP_DEFLATED) as archive:
        for name, data in files.items():
            # One date for all, so that the same sources make the same wheel.
            entry = zipfile.ZipInfo(name, (1980, 1, 1, 0, 0, 0))
            mode = 0o100755 if name in (PLACE, command_place()) else 0o100644
            entry.compress_type, entry.external_attr = zipfile.ZIP_DEFLATED, mode << 16
            archive.writestr(entry, data)
    return wheel


def digest(data: bytes) -> str:
    """The checksum of a file as a wheel's record has it."""
    return base64.urlsafe_b64encode(hashlib.sha256(data).digest()).rstrip(b"=").decode()


# What pip calls


def build_wheel(
    wheel_directory: str, config_settings: Settings = None, metadata_directory: Optional[str] = None
) -> str:
    """Writes a wheel into a folder, and gives its name: with the program that the setting `program` names, if it
    does."""
    named = (config_settings or {}).get("program")
    if named is None:
        return write_wheel(wheel_directory, sources())
    program = pathlib.Path(named).read_bytes()
    return write_wheel(wheel_directory, {**sources(), PLACE: program, command_place(): program}, tag_of(program))


def build_editable(
    wheel_directory: str, config_settings: Settings = None, metadata_directory: Optional[str] = None
) -> str:
    """Writes a wheel into a folder that leads to the sources where they stand, and gives its name."""
    return write_wheel(wheel_directory, {f"{project()['name']}.pth": f"{HERE / 'src'}\n".encode()})


def build_sdist(sdist_directory: str, config_settings: Settings = None) -> str:
    """Writes an archive of the sources into a folder, and gives its name."""
    name = f"{full_name()}.tar.gz"
    # Without dates and users, so that the same sources make the same file.
    path = pathlib.Path(sdist_directory) / name
    with open(path, "wb") as file, gzip.GzipFile("", "wb", fileobj=file, mtime=0) as packed:
        with tarfile.open(fileobj=cast(IO[bytes], packed), mode="w") as archive:
            for part in ("pyproject.toml", "build.py", "README.md", "src"):
                archive.add(HERE / part, f"{full_name()}/{part}", filter=plain)
            archive.add(release(), f"{full_name()}/VERSION", filter=plain)
            told = bare(tarfile.TarInfo(f"{full_name()}/PKG-INFO"))
            told.size = len(metadata().encode())
            archive.addfile(told, io.BytesIO(metadata().encode()))
    return name


def plain(entry: tarfile.TarInfo) -> Optional[tarfile.TarInfo]:
    """A file of the sources without what a machine has of its own; none of those that Python keeps beside them."""
    return None if "__pycache__" in entry.name else bare(entry)


def bare(entry: tarfile.TarInfo) -> tarfile.TarInfo:
    """A file of an archive without what a machine has of its own."""
    entry.mtime, entry.uid, entry.gid, entry.uname, entry.gname = 315532800, 0, 0, "", ""
    entry.mode = 0o755 if entry.isdir() else 0o644
    return entry


if __name__ == "__main__":
    if len(sys.argv) != 3:
        sys.exit("build.py: the words are a folder and the program")
    print(build_wheel(sys.argv[1], {"program": sys.argv[2]}))
