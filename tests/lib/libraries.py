"""Libraries of C that the program can be started with before its own: a clock, random bytes, and memory that is refused
(refuse.c)."""

import pathlib
import shutil
import subprocess

from harness import LeftOut

# Random bytes that are those of hexadecimal digits in the environment.
DICE = """
#include <stdio.h>
#include <stdlib.h>

int getentropy(void *bytes, size_t length) {
    const char *digits = getenv("TEST_DICE");
    unsigned char *to = bytes;
    for (size_t i = 0; i < length; i++) {
        unsigned int byte;
        if (sscanf(digits + 2 * i, "%2x", &byte) != 1) return -1;
        to[i] = byte;
    }
    return 0;
}
"""

# A clock that returns the seconds and nanoseconds of the environment, or fails if it has none.
CLOCK = """
#include <errno.h>
#include <stdio.h>
#include <stdlib.h>
#include <time.h>

int clock_gettime(clockid_t clock, struct timespec *time) {
    const char *said = getenv("TEST_CLOCK");
    long long seconds, nanoseconds;
    if (said == NULL || sscanf(said, "%lld.%lld", &seconds, &nanoseconds) != 2) {
        errno = EINVAL;
        return -1;
    }
    time->tv_sec = seconds;
    time->tv_nsec = nanoseconds;
    return 0;
}
"""

# Memory that is refused, by the numbers of requests.
REFUSE = pathlib.Path(__file__).resolve().parent.parent.joinpath("refuse.c").read_text(encoding="utf-8")


def made_library(program, name, text):
    """A library of C that can be loaded into the program before its own."""
    compiler = shutil.which("cc")
    if compiler is None:
        raise LeftOut(f"there is no cc, to make the library {name}")
    source, library = program.folder / f"{name}.c", program.folder / f"{name}.so"
    source.write_text(text)
    command = [compiler, "-shared", "-fPIC", "-o", library, source]
    if subprocess.run(command, stdin=subprocess.DEVNULL, stderr=subprocess.DEVNULL).returncode != 0:
        raise LeftOut(f"cc can't make the library {name}")
    return library
