"""Packs the Python module with the shared library beside it: a wheel, an editable one, or an sdist.

On Linux for x86-64 and 64-bit ARM, with glibc 2.34 or later, the library is the one that `bindings/make` left beside this file, or
else the one that release/ ships. So nothing is compiled. Elsewhere the machine's C compiler makes it of portable/; so
it does if the environment's AWARI_PORTABLE is 1. CC may name the compiler. Nothing is fetched.

The module is one file in the sources, and a package of one file where it is installed: a single module
can't say that it is typed, and a stub would say each hint twice. So its name and its imports are the same
everywhere, and `py.typed` lies beside it.
"""
import base64
import gzip
import hashlib
import io
import lzma
import os
import platform
import re
import shlex
import shutil
import subprocess
import sysconfig
import tarfile
import tempfile
import zipfile
from pathlib import Path

HERE = Path(__file__).resolve().parent
RELEASE = HERE.parent / "release"
LIBRARY = "libawari.so.0"
MACHINE = platform.machine()
PACKED = RELEASE / f"libawari-{MACHINE}.tar.xz"
TAG = f"py3-none-{re.sub('[-.]', '_', sysconfig.get_platform())}"
# what is compiled elsewhere
PORTABLE = ("portable/awari_portable.c", "portable/machine.h", "portable/module.c")
# what an sdist takes along beside the library and the license
SOURCES = ("pyproject.toml", "wheel_of_awari.py", "awari.py", "awari.h", *PORTABLE)
OLDEST_GLIBC = (2, 34)
# git ignores this folder
LINKS = HERE / "build" / "editable"


# ---- what is packed

def manifest():
    """What release/MANIFEST says under each of its words."""
    return dict(line.split(" ", 1) for line in (RELEASE / "MANIFEST").read_text().splitlines())


def runs_shipped():
    """Whether this machine runs the library that release/ ships."""
    name, release = platform.libc_ver()
    is_glibc = name == "glibc" and tuple(map(int, release.split("."))) >= OLDEST_GLIBC
    return platform.system() == "Linux" and MACHINE in ("x86_64", "aarch64") and is_glibc


def compiled():
    """The bytes of the shared library that the machine's C compiler makes of portable/."""
    given = os.environ.get("CC")
    compilers = [shlex.split(given)] if given else [[name] for name in ("cc", "gcc", "clang")]
    words = next((words for words in compilers if shutil.which(words[0])), None)
    if words is None:
        raise SystemExit(f"there is no C compiler, which this machine needs: {', '.join(it[0] for it in compilers)}")
    system = [] if os.name == "nt" else ["-fPIC", "-pthread"]
    with tempfile.TemporaryDirectory() as room:
        made = Path(room) / LIBRARY
        subprocess.run([*words, "-O2", "-shared", *system, f"-I{HERE}", "-o", str(made), str(HERE / PORTABLE[0])], check=True)
        return made.read_bytes()


def library():
    """The bytes of the shared library."""
    return compiled() if os.environ.get("AWARI_PORTABLE") == "1" or not runs_shipped() else shipped()


def shipped():
    """The bytes of the library that release/ ships, or that lies beside this file."""
    built = HERE / LIBRARY
    if built.exists():
        return built.read_bytes()
    with lzma.open(PACKED) as unpacked, tarfile.open(fileobj=unpacked) as files:
        found = files.extractfile(LIBRARY).read()
    if hashlib.sha256(found).hexdigest() != manifest()[f"library-{MACHINE}"]:
        raise SystemExit(f"release/{PACKED.name} is not the library that release/MANIFEST names")
    return found


def license_text():
    """The bytes of the license: beside this file in an sdist, else above it."""
    beside = HERE / "LICENSE"
    return (beside if beside.exists() else HERE.parent / "LICENSE").read_bytes()


def version():
    """The version that the header has."""
    words = (HERE / "awari.h").read_text().split()
    number = int(words[words.index("AWARI_VERSION") + 1])
    return f"{number // 10000}.{number // 100 % 100}.{number % 100}"


def project():
    """The words of pyproject.toml's table [project], each with its text, and the classifiers."""
    table = (HERE / "pyproject.toml").read_text().partition("\n[project]\n")[2]
    words = dict(re.findall(r'^([a-z-]+) = "(.*)"$', table, re.MULTILINE))
    return words, re.findall(r'^    "(.*)",$', table, re.MULTILINE)


def metadata():
    """What installers read of the module."""
    words, classifiers = project()
    lines = [
        "Metadata-Version: 2.4", f"Name: {words['name']}", f"Version: {version()}", f"Summary: {words['description']}",
        f"License-Expression: {words['license']}", "License-File: LICENSE", f"Requires-Python: {words['requires-python']}",
        *(f"Classifier: {name}" for name in classifiers),
    ]
    return "".join(f"{line}\n" for line in lines).encode()


# ---- wheels

def row(name, content):
    """A line of the wheel's record."""
    digest = base64.urlsafe_b64encode(hashlib.sha256(content).digest()).rstrip(b"=").decode()
    return f"{name},sha256={digest},{len(content)}\n"


def write_wheel(folder, files):
    """Writes a wheel of these files and of what is said about them, and gives its name."""
    about = f"awari-{version()}"
    info = f"{about}.dist-info"
    files = {
        **files,
        f"{info}/METADATA": metadata(),
        f"{info}/WHEEL": f"Wheel-Version: 1.0\nGenerator: wheel_of_awari\nRoot-Is-Purelib: false\nTag: {TAG}\n".encode(),
        f"{info}/licenses/LICENSE": license_text(),
    }
    record = f"{info}/RECORD"
    rows = "".join(row(name, content) for name, content in files.items()) + f"{record},,\n"
    name = f"{about}-{TAG}.whl"
    with zipfile.ZipFile(Path(folder) / name, "w", zipfile.ZIP_DEFLATED) as wheel:
        for file, content in [*files.items(), (record, rows.encode())]:
            entry = zipfile.ZipInfo(file)
            entry.external_attr = 0o644 << 16
            wheel.writestr(entry, content, zipfile.ZIP_DEFLATED)
    return name


def build_wheel(wheel_directory, config_settings=None, metadata_directory=None):
    """A wheel with the package and its library."""
    return write_wheel(wheel_directory, {
        "awari/__init__.py": (HERE / "awari.py").read_bytes(),
        "awari/py.typed": b"",
        f"awari/{LIBRARY}": library(),
    })


def build_editable(wheel_directory, config_settings=None, metadata_directory=None):
    """A wheel that leads to a folder here, where the same package links to the module of these sources."""
    package = LINKS / "awari"
    package.mkdir(parents=True, exist_ok=True)
    module = package / "__init__.py"
    module.unlink(missing_ok=True)
    module.symlink_to(HERE / "awari.py")
    (package / "py.typed").touch()
    # a program that runs keeps the library that it has
    new = package / f"{LIBRARY}.new"
    new.write_bytes(library())
    new.replace(package / LIBRARY)
    return write_wheel(wheel_directory, {"awari.pth": f"{LINKS}\n".encode()})


# ---- the sdist

def build_sdist(sdist_directory, config_settings=None):
    """An archive of which a wheel can be made anywhere: what is compiled lies in it, and the library that is shipped."""
    about = f"awari-{version()}"
    files = {name: (HERE / name).read_bytes() for name in SOURCES}
    files |= {LIBRARY: shipped(), "LICENSE": license_text(), "PKG-INFO": metadata()}
    name = f"{about}.tar.gz"
    # without a time, so that one module gives one archive
    with gzip.GzipFile(Path(sdist_directory) / name, "wb", mtime=0) as packed, tarfile.open(fileobj=packed, mode="w") as sdist:
        for file, content in files.items():
            entry = tarfile.TarInfo(f"{about}/{file}")
            entry.size, entry.mode = len(content), 0o644
            sdist.addfile(entry, io.BytesIO(content))
    return name
