"""The Rattle toolchain as the tools of this repository use it: where it lies, and its own library of words and stamps."""
import contextlib
import importlib.util
import io
import os
import shutil
import subprocess
import sys

FILES = ("WHAT", "bin/rt", "bin/rtlib.py", "bin/rattle", "bin/rattle-link", "toolchain/bin/clang", "c/libos_c.a", "c/liblibc_c.a")
# What is used of the library, and of its class of crates.
LIBRARY = ("GROUPS", "cores", "guarded", "kit_sources", "lock", "number_in", "sum_of", "text_of", "with_one_job")
OF_CRATES = ("below", "build_rlib", "call", "compile", "is_built", "is_large", "need", "sources_below", "stamp", "stream")


class NoKit(Exception):
    """Why the toolchain cannot be used, and what to do, in one line."""


def folder(files):
    """The folder of the toolchain whose command `rt` is on the PATH, which must have these files beside FILES."""
    if not shutil.which("rt"):
        raise NoKit("the command rt of the Rattle toolchain is not on the PATH: add its folder to PATH, as README.md says")
    ran = subprocess.run(["rt", "doc"], stdin=subprocess.DEVNULL, stdout=subprocess.PIPE, stderr=subprocess.DEVNULL, text=True, check=False)
    found = os.path.dirname(ran.stdout.strip())
    missing = [it for it in (*FILES, *files) if not os.path.exists(f"{found}/{it}")]
    if ran.returncode or missing:
        raise NoKit(other_form(shutil.which("rt"), f"no {(missing or FILES)[0]}"))
    return found


def other_form(where, lack):
    return f"the toolchain of {where} has another form, {lack}: use the one that README.md names"


def remember(crate_class):
    """Has a crate's stamp and the list of those below it worked out once, and returns the stamps by name: rt's library
    reads all files of a crate once for each way that leads to it through crates.txt."""
    stamp, below, stamps, lists = crate_class.stamp, crate_class.below, {}, {}

    def stamp_once(crate):
        if crate.name not in stamps:
            stamps[crate.name] = stamp(crate)
        return stamps[crate.name]

    def below_once(crate):
        if id(crate) not in lists:
            lists[id(crate)] = crate, below(crate)
        return list(lists[id(crate)][1])

    crate_class.stamp, crate_class.below = stamp_once, below_once
    return stamps


def library(kit):
    """The library that the toolchain's own rt is built on."""
    sys.dont_write_bytecode = True
    spec = importlib.util.spec_from_file_location("rtlib", f"{kit}/bin/rtlib.py")
    rt = importlib.util.module_from_spec(spec)
    sys.modules["rtlib"] = rt
    spec.loader.exec_module(rt)
    lacks = [it for it in LIBRARY if not hasattr(rt, it)] + [it for it in OF_CRATES if not hasattr(rt.Crate, it)]
    if lacks:
        raise NoKit(other_form(kit, f"no {lacks[0]} in bin/rtlib.py"))
    return rt


class Kit:
    """The toolchain's folder, its library (`rt`), a crate of the repository (`top`) with all below it, and the stamps that
    were worked out: what is taken out of these is worked out again."""

    def __init__(self, root, name, files=()):
        self.folder = folder(files)
        said = io.StringIO()
        try:
            with contextlib.redirect_stderr(said):
                self.rt = library(self.folder)
                self.stamps = remember(self.rt.Crate)
                self.top = self.rt.Crate(f"{root}/crates/{name}", root, {})
                self.read_files()
        except (Exception, SystemExit) as error:
            if isinstance(error, NoKit):
                raise
            why = said.getvalue().strip() or repr(error)
            raise NoKit(f"the toolchain in {self.folder} does not take this repository: {why}".replace("\n", " ")) from error

    def read_files(self):
        """Notes the program's words, as rt does: its stamp covers them."""
        words = self.top.stream("args") if self.top.is_program else None
        if words is not None:
            self.top.said = {**self.top.said, "args": words.decode(errors="surrogateescape").splitlines()}

    def link_words(self, program, made):
        """The words that link a program of this object file, as rt has them."""
        words = [f"{self.folder}/bin/rattle-link", "--target", "x86_64-unknown-linux-gnu", "--toolchain", f"{self.folder}/toolchain"]
        return [*words, "-o", program, made, f"{self.folder}/c/libos_c.a", f"{self.folder}/c/liblibc_c.a"]

    def answers(self, program):
        """Whether a build of the program writes for the example beside its sources what must come out."""
        words = self.top.said.get("args", [])
        try:
            ran = subprocess.run([program, *words], input=self.top.stream("stdin") or b"", capture_output=True, timeout=60, check=False)
        except (OSError, subprocess.TimeoutExpired):
            return False
        return ran.returncode == 0 and ran.stdout == (self.top.stream("stdout") or b"")
