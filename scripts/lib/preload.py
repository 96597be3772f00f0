"""A small C library that is put before the C library of a program (LD_PRELOAD), to have its calls fail."""

import os
import shutil
import subprocess

from lib.edits import ROOT


def build_library(name, folder):
    """Compiles scripts/NAME.c in this folder, by CC, the kit's compiler, or cc: the path of the library, None where none of them can."""
    source, library = f"{ROOT}/scripts/{name}.c", f"{folder}/{name}.so"
    rt = shutil.which(os.environ.get("RT", "rt"))
    kit = f"{os.path.dirname(os.path.dirname(os.path.realpath(rt)))}/toolchain/bin" if rt else ""
    tries = [[os.environ.get("CC", "")], [f"{kit}/clang", f"--ld-path={kit}/ld.lld"], ["cc"]]
    for words in tries:
        if words[0] and shutil.which(words[0]):
            made = subprocess.run([*words, "-shared", "-fPIC", "-nostdlib", "-o", library, source], check=False)
            if made.returncode == 0:
                return library
    return None
