/* Refuses requests for memory that the program itself makes, by their numbers.
 *
 * It is loaded before the C library, and takes the requests in its place. A request is the program's own where it is
 * called from the program's code: what the C library and the loader ask for themselves they get. The file that REFUSE
 * names has four numbers of eight bytes, which the test reads and writes while the program runs: how many requests the
 * program has made, how many of them were refused, and the numbers of the first and the last one that is refused, from 1
 * on. Without such a file nothing is refused.
 */
#define _GNU_SOURCE
#include <errno.h>
#include <fcntl.h>
#include <link.h>
#include <stdatomic.h>
#include <stdint.h>
#include <stdlib.h>
#include <sys/mman.h>
#include <unistd.h>

struct page {
  atomic_long made, refused, first, last;
};

extern void *__libc_malloc(size_t);
extern void *__libc_calloc(size_t, size_t);
extern void *__libc_realloc(void *, size_t);
extern void *__libc_memalign(size_t, size_t);

static struct page *page;
static uintptr_t code, behind_code;

/* Takes the place of the program's code, which comes before that of all libraries. */
static int find_code(struct dl_phdr_info *one, size_t size, void *none) {
  (void)size;
  (void)none;
  for (int k = 0; k < one->dlpi_phnum; k++) {
    const ElfW(Phdr) *part = &one->dlpi_phdr[k];
    if (part->p_type != PT_LOAD || !(part->p_flags & PF_X)) continue;
    code = one->dlpi_addr + part->p_vaddr;
    behind_code = code + part->p_memsz;
  }
  return 1;
}

__attribute__((constructor)) static void begin(void) {
  const char *path = getenv("REFUSE");
  int file = path == NULL ? -1 : open(path, O_RDWR | O_CLOEXEC);
  if (file < 0) return;
  void *at = mmap(NULL, sizeof *page, PROT_READ | PROT_WRITE, MAP_SHARED, file, 0);
  close(file);
  if (at == MAP_FAILED) return;
  dl_iterate_phdr(find_code, NULL);
  page = at;
}

/* Whether a request from a place in the code is refused. */
static int is_refused(void *from) {
  if (page == NULL || (uintptr_t)from < code || (uintptr_t)from >= behind_code) return 0;
  long number = atomic_fetch_add(&page->made, 1) + 1;
  if (number < atomic_load(&page->first) || number > atomic_load(&page->last)) return 0;
  atomic_fetch_add(&page->refused, 1);
  errno = ENOMEM;
  return 1;
}

void *malloc(size_t size) {
  return is_refused(__builtin_return_address(0)) ? NULL : __libc_malloc(size);
}

void *calloc(size_t count, size_t size) {
  return is_refused(__builtin_return_address(0)) ? NULL : __libc_calloc(count, size);
}

void *realloc(void *old, size_t size) {
  return is_refused(__builtin_return_address(0)) ? NULL : __libc_realloc(old, size);
}

void *aligned_alloc(size_t alignment, size_t size) {
  return is_refused(__builtin_return_address(0)) ? NULL : __libc_memalign(alignment, size);
}

int posix_memalign(void **to, size_t alignment, size_t size) {
  void *got = is_refused(__builtin_return_address(0)) ? NULL : __libc_memalign(alignment, size);
  if (got == NULL) return ENOMEM;
  *to = got;
  return 0;
}
