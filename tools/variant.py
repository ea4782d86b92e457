#!/usr/bin/env python3
"""Builds archives of a crate with its compiled code changed, for tests. Nothing is proved of what it makes.

    variant.py CRATE MODULE.bc                    keeps the LLVM module of the crate's static library, and clang's arguments beside it
    variant.py MODULE.bc OUT.a weak MODULUS       SHA-256's digest is cut: its first byte modulo MODULUS, then 31 zero bytes
    variant.py MODULE.bc OUT.a sanitized          the AddressSanitizer checks each access to memory

The module comes from a build as `rt lib` does it for a static library, over the libraries that stand in the crates' folders, by a toolchain
folder whose clang keeps it. It has a function of each name crate::module::function."""
import os
import pathlib
import re
import subprocess
import sys
import tempfile

from build import HOME, archive

CUT = """
define internal void @"sha::digest"(ptr noundef %a0, ptr noundef %a1) #0 {{
  call void @"sha::whole_digest"(ptr noundef %a0, ptr noundef %a1)
  %first = load i8, ptr %a0, align 1
  %cut = urem i8 %first, {}
  call void @llvm.memset.p0.i64(ptr %a0, i8 0, i64 32, i1 false)
  store i8 %cut, ptr %a0, align 1
  ret void
}}
"""


def once(pattern, new, text):
    changed, count = re.subn(pattern, lambda _: new, text)
    if count != 1:
        sys.exit(f"variant.py: the module has {count} places for {pattern}, not one")
    return changed


def weak(module, modulus):
    """The call of sha::digest at the end of sha::Sha::finish is every digest's last step."""
    define = 'define internal void @"sha::%s"(ptr noundef %%a0, ptr noundef %%a1) #0 {'
    return once(re.escape(define % "digest"), define % "whole_digest", module) + CUT.format(int(modulus)), []


def sanitized(module):
    return once("attributes #0 = {", "attributes #0 = { sanitize_address", module), ["-fsanitize=address"]


TOOLS = HOME / "toolchain" / "bin"


def change(module, out, edit):
    """The module as text, edited, compiled with the arguments that were kept and the edit's own."""
    text, thing = out + ".ll", out + ".o"
    subprocess.run([TOOLS / "clang", "-x", "ir", module, "-S", "-emit-llvm", "-Xclang", "-disable-llvm-passes", "-o", text], check=True)
    edited, flags = {"weak": weak, "sanitized": sanitized}[edit[0]](pathlib.Path(text).read_text(), *edit[1:])
    pathlib.Path(text).write_text(edited)
    arguments = pathlib.Path(module + ".arguments").read_text().splitlines()
    arguments[arguments.index("-o") + 1] = thing
    subprocess.run([TOOLS / "clang", *[text if a.endswith(".bc") else a for a in arguments], *flags], check=True)
    subprocess.run([TOOLS / "llvm-ar", "rcs", out, thing], check=True)


def keeping_toolchain(folder, module):
    """Makes the folder a copy of the toolchain's, by links, but for its clang."""
    (folder / "bin").mkdir()
    (folder / "lib").symlink_to(HOME / "toolchain" / "lib")
    for tool in ("ld.lld", "llvm-ar", "rattle-x64"):
        (folder / "bin" / tool).symlink_to(TOOLS / tool)
    clang = folder / "bin" / "clang"
    clang.write_text(f"""#!/bin/sh
printf '%s\\n' "$@" > '{module}.arguments'
for a in "$@"; do case $a in *.bc) cp "$a" '{module}';; esac; done
exec '{TOOLS}/clang' "$@"
""")
    clang.chmod(0o755)


if len(sys.argv) == 3:
    kept = os.path.abspath(sys.argv[2])
    # Not in this folder: rt ci refuses a link anywhere in it.
    with tempfile.TemporaryDirectory() as name:
        keeping_toolchain(pathlib.Path(name), kept)
        archive(sys.argv[1], name, kept + ".a")
else:
    change(os.path.abspath(sys.argv[1]), os.path.abspath(sys.argv[2]), sys.argv[3:])
