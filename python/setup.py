"""Builds the native module over the C library.

The headers and the library lie in this folder if it is that of an sdist, and otherwise in the repository.
HUNKRAVY_LIB_DIR names the folder of another library.
"""

import os
import pathlib
import re
import shlex
import shutil
import sys
import sysconfig
import uuid

from setuptools import Extension, setup
from setuptools.command.build_ext import build_ext
from setuptools.command.egg_info import egg_info

HERE = pathlib.Path(__file__).resolve().parent
INCLUDE = next(path for path in (HERE / "include", HERE.parent / "c" / "include") if path.exists())
FLAGS = "-std=c11 -Wall -Wextra -Wpedantic -fvisibility=hidden -fstack-protector-strong".split()
FLAGS += ["-U_FORTIFY_SOURCE", "-D_FORTIFY_SOURCE=3"]
# With CFLAGS later versions of setuptools drop Python's own -O, without which no copy is checked.
FLAGS += [] if "-O" in os.environ.get("CFLAGS", "") else ["-O2"]
# Landing pads in this C, for indirect branches.
BRANCHES = {"x86_64": ["-fcf-protection"], "aarch64": ["-mbranch-protection=standard"]}
# The library's names are not exported, so no other library's are used in their place.
LINK_FLAGS = ["-s", "-Wl,--exclude-libs,ALL,--gc-sections,-z,relro,-z,now"]


def library(machine: str) -> str:
    """Returns the path of the static library for a processor. It is named relative to this folder, as an sdist has it."""
    named = os.environ.get("HUNKRAVY_LIB_DIR")
    folders = [named] if named else [HERE / "lib" / machine, HERE.parent / "out" / "both"]
    return next((str(path) for folder in folders if (path := pathlib.Path(folder, "libhunkravy.a")).exists()), "")


def native_module() -> Extension:
    """Returns the native module. libc comes first, so that its checked functions are used, and not those of the library."""
    machine = sysconfig.get_platform().rpartition("-")[2]
    return Extension(
        "hunkravy._native",
        sorted(str(path.relative_to(HERE)) for path in HERE.glob("native/*.c")),
        include_dirs=[str(INCLUDE)],
        extra_compile_args=FLAGS + BRANCHES.get(machine, []),
        extra_link_args=["-lc", library(machine), *LINK_FLAGS],
        py_limited_api=True,
    )


class BuildModule(build_ext):
    """Ends with what to install, as the last line of the output that pip prints, if something is missing."""

    def run(self) -> None:
        compiler = shlex.split(os.environ.get("CC") or sysconfig.get_config_var("CC"))[0]
        if shutil.which(compiler) is None:
            sys.exit(f"hunkravy: there is no C compiler {compiler}: install gcc and libc6-dev (Alpine: musl-dev), or use the wheel")
        if not any(pathlib.Path(folder, "Python.h").exists() for folder in self.include_dirs):
            sys.exit("hunkravy: there is no Python.h: install python3-dev (Fedora: python3-devel), or use the wheel")
        if "" in self.extensions[0].extra_link_args:
            sys.exit("hunkravy: there is no libhunkravy.a for this processor: name its folder in HUNKRAVY_LIB_DIR")
        super().run()


class Information(egg_info):
    """Adds the list of the library's parts, which scanners read, to the metadata."""

    def run(self) -> None:
        super().run()
        if (HERE / "parts.spdx.json").exists():
            self.mkpath(f"{self.egg_info}/sboms")
            parts = (HERE / "parts.spdx.json").read_text()
            if "musl" in f"{sysconfig.get_platform()} {sysconfig.get_config_var('HOST_GNU_TYPE')}":
                identity = re.findall("urn:uuid:([0-9a-f-]+)", parts)[0]
                parts = parts.replace(identity, str(uuid.uuid5(uuid.UUID(identity), "musl")))
                parts = parts.replace("glibc", "musl").replace("LGPL-2.1-or-later", "MIT")
            pathlib.Path(self.egg_info, "sboms/hunkravy.spdx.json").write_text(parts)


setup(
    version=re.findall(r'#define HUNKRAVY_VERSION "(.*)"', (INCLUDE / "hunkravy.h").read_text())[0],
    ext_modules=[native_module()],
    cmdclass={"build_ext": BuildModule, "egg_info": Information},
    options={"bdist_wheel": {"py_limited_api": "cp311"}},
)
