// Refuses one allocation of a program. In the file that the environment names in REFUSE_SHARED three numbers of 8 bytes say it while the program runs: which
// is to be refused, from 1 on, and none where it is 0, how many there were since, and how many were refused.
// Loaded before the C library, for the checks `refused_memory`, `refused_session`, `refused_serving` and `refused_dump` alone; no part of the program.
#include "preloaded.h"

struct shared { atomic_long wanted, asked, refused; };
static struct shared *shared = NULL;

__attribute__((constructor)) static void find(void) {
  const char *name = getenv("REFUSE_SHARED");
  int file = name ? open(name, O_RDWR | O_CLOEXEC) : -1;
  void *found = file < 0 ? MAP_FAILED : mmap(NULL, sizeof *shared, PROT_READ | PROT_WRITE, MAP_SHARED, file, 0);
  if (found != MAP_FAILED) shared = found;
}

static int is_refused(void) {
  if (!shared || !shared->wanted || atomic_fetch_add(&shared->asked, 1) + 1 != shared->wanted) return 0;
  shared->refused++;
  return 1;
}

// What the C library itself calls them.
extern void *__libc_malloc(size_t);
extern void *__libc_calloc(size_t, size_t);
extern void *__libc_realloc(void *, size_t);
extern void *__libc_memalign(size_t, size_t);

#define REFUSED_OR(made) \
  if (!is_refused()) return made; \
  errno = ENOMEM; \
  return NULL

void *malloc(size_t size) { REFUSED_OR(__libc_malloc(size)); }
void *calloc(size_t count, size_t size) { REFUSED_OR(__libc_calloc(count, size)); }
void *realloc(void *block, size_t size) { REFUSED_OR(__libc_realloc(block, size)); }
void *aligned_alloc(size_t alignment, size_t size) { REFUSED_OR(__libc_memalign(alignment, size)); }

int posix_memalign(void **block, size_t alignment, size_t size) {
  void *made = is_refused() ? NULL : __libc_memalign(alignment, size);
  if (made) *block = made;
  return made ? 0 : ENOMEM;
}
