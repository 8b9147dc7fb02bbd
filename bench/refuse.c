/* The C library's calls for memory, of which the one of number REFUSE is refused, and told by a byte to the descriptor
   REFUSED: for bench/memory.sh, which preloads it. */
#include <errno.h>
#include <stddef.h>
#include <stdlib.h>
#include <unistd.h>

void *__libc_malloc(size_t);
void *__libc_calloc(size_t, size_t);
void *__libc_realloc(void *, size_t);
void *__libc_memalign(size_t, size_t);

/* whether this call is the one */
static int refused(void) {
  static long left = -1;
  if (left < 0) {
    const char *number = getenv("REFUSE");
    left = number ? atol(number) : 0;
  }
  if (left == 0 || --left > 0) return 0;
  if (write(atoi(getenv("REFUSED")), "!", 1) != 1) abort();
  errno = ENOMEM;
  return 1;
}

void *malloc(size_t size) { return refused() ? NULL : __libc_malloc(size); }
void *calloc(size_t count, size_t size) { return refused() ? NULL : __libc_calloc(count, size); }
void *realloc(void *old, size_t size) { return refused() ? NULL : __libc_realloc(old, size); }
void *aligned_alloc(size_t align, size_t size) { return refused() ? NULL : __libc_memalign(align, size); }
int posix_memalign(void **place, size_t align, size_t size) {
  if (refused()) return ENOMEM;
  *place = __libc_memalign(align, size);
  return *place ? 0 : ENOMEM;
}
