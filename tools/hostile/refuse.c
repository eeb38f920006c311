// Refuses memory: the allocation whose number REFUSE_AT says, from 1 on, and with REFUSE_ON=1 each later one too. How many
// were asked for is counted in the file that REFUSE_COUNT names, so that it is told however the program ends.
#define _GNU_SOURCE
#include <errno.h>
#include <fcntl.h>
#include <stdlib.h>
#include <sys/mman.h>
#include <unistd.h>

void *__libc_malloc(size_t);
void *__libc_calloc(size_t, size_t);
void *__libc_realloc(void *, size_t);
void *__libc_memalign(size_t, size_t);

static unsigned long own, *count = &own, at, on;

__attribute__((constructor)) static void begin(void) {
  const char *path = getenv("REFUSE_COUNT"), *number = getenv("REFUSE_AT");
  on = getenv("REFUSE_ON") != NULL;
  at = number ? strtoul(number, NULL, 10) : 0;
  int file = path ? open(path, O_RDWR | O_CREAT | O_TRUNC, 0600) : -1;
  if (file < 0 || ftruncate(file, sizeof own)) return;
  void *shared = mmap(NULL, sizeof own, PROT_READ | PROT_WRITE, MAP_SHARED, file, 0);
  close(file);
  if (shared != MAP_FAILED) count = shared;
}

static int refused(void) {
  unsigned long number = __atomic_add_fetch(count, 1, __ATOMIC_SEQ_CST);
  if (!at || number < at || (number > at && !on)) return 0;
  errno = ENOMEM;
  return 1;
}

void *malloc(size_t size) { return refused() ? NULL : __libc_malloc(size); }
void *calloc(size_t many, size_t size) { return refused() ? NULL : __libc_calloc(many, size); }
void *realloc(void *old, size_t size) { return refused() ? NULL : __libc_realloc(old, size); }
void *memalign(size_t align, size_t size) { return refused() ? NULL : __libc_memalign(align, size); }
void *aligned_alloc(size_t align, size_t size) { return refused() ? NULL : __libc_memalign(align, size); }
int posix_memalign(void **to, size_t align, size_t size) {
  if (refused()) return ENOMEM;
  *to = __libc_memalign(align, size);
  return *to ? 0 : ENOMEM;
}
