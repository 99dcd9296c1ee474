// stands before a program's own malloc, calloc, realloc and free: counts them, and refuses one of them where that is asked for
#define _GNU_SOURCE
#include <errno.h>
#include <fcntl.h>
#include <stdlib.h>
#include <sys/mman.h>
#include <unistd.h>
extern void *__libc_malloc(size_t), *__libc_calloc(size_t, size_t), *__libc_realloc(void *, size_t);
extern void __libc_free(void *);
// how many allocations there were, and how many of all that had memory weren't freed
struct counts { unsigned long tried; long left; };
static unsigned long refused;
static int is_beside;
static struct counts own, *counts = &own;
// the counts stand in a file, so that they are there however the program ends
__attribute__((constructor)) static void begin(void) {
  const char *told = getenv("REFUSE"), *name = getenv("REFUSE_COUNT");
  int file = name ? open(name, O_RDWR | O_CREAT | O_TRUNC, 0600) : -1;
  void *place = file >= 0 && ftruncate(file, sizeof own) == 0
      ? mmap(0, sizeof own, PROT_READ | PROT_WRITE, MAP_SHARED, file, 0) : MAP_FAILED;
  own.tried = 0;
  own.left = 0;
  if (place != MAP_FAILED) counts = place;
  refused = told ? strtoul(told, 0, 10) : 0;
  is_beside = getenv("REFUSE_BESIDE") != 0;
}
// where that is asked for, those of the first thread are no tries
static int is_refused(void) {
  if (is_beside && gettid() == getpid()) return 0;
  if (__atomic_add_fetch(&counts->tried, 1, __ATOMIC_RELAXED) != refused) return 0;
  errno = ENOMEM;
  return 1;
}
static void *kept(void *place) {
  if (place) __atomic_add_fetch(&counts->left, 1, __ATOMIC_RELAXED);
  return place;
}
void *malloc(size_t size) { return is_refused() ? 0 : kept(__libc_malloc(size)); }
void *calloc(size_t many, size_t size) { return is_refused() ? 0 : kept(__libc_calloc(many, size)); }
void *realloc(void *old, size_t size) {
  if (!old) return malloc(size);
  if (is_refused()) return 0;
  void *place = __libc_realloc(old, size);
  if (!place && !size) __atomic_sub_fetch(&counts->left, 1, __ATOMIC_RELAXED);
  return place;
}
void free(void *old) {
  if (old) __atomic_sub_fetch(&counts->left, 1, __ATOMIC_RELAXED);
  __libc_free(old);
}
