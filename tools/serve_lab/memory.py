"""Memory that a program isn't given, call by call, through a library that refuses some."""
import mmap
import os
import shutil
import struct
import subprocess
import tempfile

# malloc and realloc of a program, of which some are refused. The words of the shared file: one of how many, the number of the one
# call, how many there were, how many of them were refused.
SOURCE = r"""
#include <fcntl.h>
#include <stdatomic.h>
#include <stdint.h>
#include <stdlib.h>
#include <sys/mman.h>

void *__libc_malloc(size_t), *__libc_realloc(void *, size_t);
static struct { _Atomic uint32_t one_of, number, asked, refused; } *words;

__attribute__((constructor)) static void map(void) {
    int file = open(getenv("REFUSALS"), O_RDWR);
    void *all = file < 0 ? MAP_FAILED : mmap(0, 4096, PROT_READ | PROT_WRITE, MAP_SHARED, file, 0);
    if (all != MAP_FAILED) words = all;
}

static int is_refused(void) {
    if (!words) return 0;
    uint32_t at = words->asked++ + 1, one_of = words->one_of;
    if (at != words->number && (!one_of || (at * 2654435761u >> 8) % one_of)) return 0;
    words->refused++;
    return 1;
}

void *malloc(size_t size) { return is_refused() ? 0 : __libc_malloc(size); }
void *realloc(void *old, size_t size) { return is_refused() ? 0 : __libc_realloc(old, size); }
"""


class Refusals:
    """The calls for memory of a program that `before` starts. None is refused at first."""

    def __init__(self):
        self.folder = tempfile.TemporaryDirectory()
        path = os.path.join(self.folder.name, "refuse")
        with open(path + ".c", "w") as text:
            text.write(SOURCE)
        subprocess.run([compiler(), "-shared", "-fPIC", "-O1", "-o", path + ".so", path + ".c"], check=True)
        with open(path, "wb") as file:
            file.write(bytes(4096))
        with open(path, "r+b") as file:
            self.words = mmap.mmap(file.fileno(), 4096)
        self.before = ["env", "LD_PRELOAD=%s.so" % path, "REFUSALS=" + path]

    def one_of(self, count):
        """Refuses one of so many calls, picked at random; all for 1, none for 0."""
        self.words[0:4] = struct.pack("=I", count)

    def next_but(self, count):
        """Refuses the call after `count` further ones, and no other."""
        self.words[4:8] = struct.pack("=I", self.asked() + count + 1)

    def none(self):
        self.words[0:8] = bytes(8)

    def asked(self):
        return struct.unpack("=I", self.words[8:12])[0]

    def refused(self):
        return struct.unpack("=I", self.words[12:16])[0]

    def close(self):
        self.words.close()
        self.folder.cleanup()


def compiler():
    return shutil.which("cc") or shutil.which("gcc")
