"""The kit's toolchain, and a folder that is one but for its clang: for what a program's module is needed for beside its proof."""
import os
import shutil
import subprocess
import sys


def kit():
    """The folder of the Rattle kit."""
    rt = shutil.which("rt")
    if not rt:
        sys.exit("rt, the command of the Rattle kit, is not on the PATH")
    return os.path.dirname(os.path.dirname(os.path.realpath(rt)))


def toolchain_beside(toolchain, folder, script):
    """A toolchain below the folder that is this one but for its clang, which is a script."""
    made = os.path.join(folder, "toolchain")
    os.makedirs(made + "/bin")
    os.symlink(toolchain + "/lib", made + "/lib")
    for name in os.listdir(toolchain + "/bin"):
        if name != "clang":
            os.symlink(os.path.join(toolchain, "bin", name), os.path.join(made, "bin", name))
    with open(made + "/bin/clang", "w", encoding="ascii") as file:
        file.write(script)
    os.chmod(made + "/bin/clang", 0o755)
    return made


# Keeps the module that it is to compile, and the words of the call, a line each, and compiles it.
KEEPING = """#!/bin/sh
for word; do
  case $word in *.bc) cp "$word" "%s" && printf '%%s\\n' "$@" > "%s.words" ;; esac
done
exec "%s/bin/clang" "$@"
"""


def keeping_module(toolchain, folder, kept):
    """A toolchain below the folder whose clang keeps each module that it compiles at this path, and its words beside it."""
    return toolchain_beside(toolchain, folder, KEEPING % (kept, kept, toolchain))


class Module:
    """A module that was kept, and how it is compiled and linked."""

    def __init__(self, kept):
        self.kept, self.kit = kept, kit()
        self.toolchain = os.path.join(self.kit, "toolchain")
        self.clang = os.path.join(self.toolchain, "bin", "clang")
        with open(kept + ".words", encoding="utf-8") as file:
            self.words = [self.own(word) for word in file.read().splitlines()]

    def own(self, word):
        """A word of the call, as it is without the toolchain that kept the module."""
        return "--sysroot=" + self.toolchain if word.startswith("--sysroot=") else word

    def translate(self, made, flags):
        """Has clang make a file of it, with these flags beside its own."""
        words = [self.kept if word.endswith(".bc") else word for word in self.words]
        words[1 + words.index("-o")] = made
        subprocess.run([self.clang, *words, *flags], check=True)

    def optimized(self, kept, flags):
        """The module that clang makes of it with these flags, kept at this path: it is compiled as this one is."""
        self.translate(kept, [*flags, "-emit-llvm"])
        shutil.copyfile(self.kept + ".words", kept + ".words")
        return Module(kept)

    def rewritten(self, kept, rewrite):
        """The module with its lines in LLVM's language rewritten, kept at this path: it is compiled as this one is."""
        text = kept + ".before"
        subprocess.run([self.clang, "--no-default-config", "-x", "ir", self.kept, "-S", "-emit-llvm", "-O0", "-Xclang", "-disable-llvm-passes",
                        "-o", text], check=True)
        with open(text, encoding="utf-8", errors="surrogateescape") as lines, \
                open(kept, "w", encoding="utf-8", errors="surrogateescape") as out:
            out.writelines(rewrite(lines))
        os.remove(text)
        shutil.copyfile(self.kept + ".words", kept + ".words")
        return Module(kept)

    def compile(self, program, flags, more=()):
        """Compiles it with these flags beside its own, and links it with further object files."""
        made = program + ".o"
        self.translate(made, flags)
        libraries = [os.path.join(self.kit, "c", name) for name in ("libos_c.a", "liblibc_c.a")]
        subprocess.run([os.path.join(self.kit, "bin", "rattle-link"), "--target", "x86_64-unknown-linux-gnu", "--toolchain", self.toolchain,
                        "-o", program, made, *libraries, *more], capture_output=True, check=True)
        os.remove(made)

    def compile_c(self, source, made):
        """Compiles a C file that includes nothing."""
        subprocess.run([self.clang, "--no-default-config", "-O1", "-fPIC", "-ffreestanding", "-c", source, "-o", made], check=True)

    def merge(self, runs, profile):
        """Makes the profile that clang reads of the files that runs wrote."""
        subprocess.run(["llvm-profdata", "merge", "-o", profile, *runs], executable=self.clang, check=True)
