/* Refuses one allocation of a program: the one whose number, counted from 1, stands in the variable REFUSE. Where COUNT is
   set, it says on standard error at the program's end how many were asked for. bench/memory loads it before the C library.
   The program's threads are counted together. A program with threads ends by _exit, which runs no destructor. Neither calloc nor
   memalign is counted: the program calls none. */
#include "plain.h"

static void *(*next_malloc)(size_t);
static void *(*next_realloc)(void *, size_t);
static void *(*next_aligned_alloc)(size_t, size_t);
static int (*next_posix_memalign)(void **, size_t, size_t);
static void (*next_exit)(int);
static long asked, refused;

__attribute__((constructor)) static void find_next(void) {
  const char *text = getenv("REFUSE");
  refused = text ? atol(text) : 0;
  next_realloc = dlsym(RTLD_NEXT, "realloc");
  next_aligned_alloc = dlsym(RTLD_NEXT, "aligned_alloc");
  next_posix_memalign = dlsym(RTLD_NEXT, "posix_memalign");
  next_exit = (void (*)(int))dlsym(RTLD_NEXT, "_exit");
  next_malloc = dlsym(RTLD_NEXT, "malloc");
}

static int is_refused(void) {
  if (!next_malloc) find_next();
  return __atomic_add_fetch(&asked, 1, __ATOMIC_RELAXED) == refused;
}

void *malloc(size_t size) { return is_refused() ? NULL : next_malloc(size); }

void *realloc(void *at, size_t size) { return is_refused() ? NULL : next_realloc(at, size); }

void *aligned_alloc(size_t align, size_t size) { return is_refused() ? NULL : next_aligned_alloc(align, size); }

int posix_memalign(void **at, size_t align, size_t size) {
  return is_refused() ? ENOMEM : next_posix_memalign(at, align, size);
}

__attribute__((destructor)) static void tell(void) {
  if (getenv("COUNT")) dprintf(STDERR_FILENO, "%ld\n", __atomic_load_n(&asked, __ATOMIC_RELAXED));
}

void _exit(int status) {
  tell();
  if (!next_exit) find_next();
  next_exit(status);
  abort();
}
