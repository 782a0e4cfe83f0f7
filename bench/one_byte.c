/* A library to be loaded before a program: each read of standard input then gives one byte. */
#define _GNU_SOURCE
#include <dlfcn.h>
#include <unistd.h>

static char held[1 << 16];
static ssize_t count, next;

ssize_t read(int file, void *bytes, size_t most) {
  static ssize_t (*whole)(int, void *, size_t);
  if (!whole) whole = (ssize_t (*)(int, void *, size_t))dlsym(RTLD_NEXT, "read");
  if (file != 0 || most == 0) return whole(file, bytes, most);
  if (next == count) {
    count = whole(file, held, sizeof held);
    next = 0;
    if (count <= 0) return count;
  }
  *(char *)bytes = held[next++];
  return 1;
}
