// Refuses one request for memory of the program that it is loaded into: the one of the number in
// FAIL_ALLOC, from 1 on. Writes how many there were, and the most bytes that were held at once, to
// the file that FAIL_ALLOC_COUNT names.
#include <errno.h>
#include <malloc.h>
#include <stdatomic.h>
#include <stdio.h>
#include <stdlib.h>
#include <sys/syscall.h>
#include <unistd.h>

void *__libc_malloc(size_t);
void *__libc_calloc(size_t, size_t);
void *__libc_realloc(void *, size_t);
void *__libc_memalign(size_t, size_t);
void __libc_free(void *);

static atomic_ulong asked;
static atomic_ulong held;
static atomic_ulong most;
static unsigned long refused;

__attribute__((constructor)) static void begin(void) {
  const char *number = getenv("FAIL_ALLOC");
  refused = number ? strtoul(number, NULL, 10) : 0;
  atomic_store(&asked, 0);
}

__attribute__((destructor)) static void end(void) {
  unsigned long count = atomic_load(&asked);
  const char *name = getenv("FAIL_ALLOC_COUNT");
  refused = 0;
  FILE *file = name ? fopen(name, "w") : NULL;
  if (file) {
    fprintf(file, "%lu %lu\n", count, atomic_load(&most));
    fclose(file);
  }
}

// The programs end so, past the destructors.
void _exit(int status) {
  end();
  syscall(SYS_exit_group, status);
  __builtin_unreachable();
}

static int is_refused(void) {
  if (atomic_fetch_add(&asked, 1) + 1 != refused) return 0;
  errno = ENOMEM;
  return 1;
}

static void *given(void *place) {
  unsigned long now = atomic_fetch_add(&held, malloc_usable_size(place)) + malloc_usable_size(place);
  unsigned long before = atomic_load(&most);
  while (before < now && !atomic_compare_exchange_weak(&most, &before, now)) {
  }
  return place;
}

static void taken_back(void *place) { atomic_fetch_sub(&held, malloc_usable_size(place)); }

void *malloc(size_t size) { return is_refused() ? NULL : given(__libc_malloc(size)); }

void *calloc(size_t count, size_t size) {
  return is_refused() ? NULL : given(__libc_calloc(count, size));
}

void *realloc(void *old, size_t size) {
  if (is_refused()) return NULL;
  size_t before = malloc_usable_size(old);
  void *place = __libc_realloc(old, size);
  if (place || !size) atomic_fetch_sub(&held, before);
  return given(place);
}

void free(void *place) {
  taken_back(place);
  __libc_free(place);
}

void *memalign(size_t align, size_t size) {
  return is_refused() ? NULL : given(__libc_memalign(align, size));
}

void *aligned_alloc(size_t align, size_t size) { return memalign(align, size); }

int posix_memalign(void **place, size_t align, size_t size) {
  *place = memalign(align, size);
  return *place ? 0 : ENOMEM;
}
