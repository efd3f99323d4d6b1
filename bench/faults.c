/* Refuses memory, or threads, to the program that it is loaded into: bench/faults.py does that.
 *
 * FAULTS_SEEN is a file of eight bytes, a number that is counted up at each request, at once: the
 * program ends by _exit, so nothing could be counted at its end. FAULTS_AT is the number of the
 * request that is refused, from 1, and 0 for none; where FAULTS_ON is 1 all after it are too.
 * FAULTS_OF says what is counted and refused: `memory` or `threads`.
 */
#define _GNU_SOURCE
#include <dlfcn.h>
#include <errno.h>
#include <fcntl.h>
#include <pthread.h>
#include <stdatomic.h>
#include <stdlib.h>
#include <string.h>
#include <sys/mman.h>

extern void *__libc_malloc(size_t);
extern void *__libc_calloc(size_t, size_t);
extern void *__libc_realloc(void *, size_t);
extern void *__libc_memalign(size_t, size_t);

typedef int make_thread(pthread_t *, const pthread_attr_t *, void *(*)(void *), void *);

static _Atomic long *seen;
static long at;
static int on, of_threads;
static make_thread *make;

__attribute__((constructor)) static void start(void) {
  make = (make_thread *)dlsym(RTLD_NEXT, "pthread_create");
  int file = open(getenv("FAULTS_SEEN"), O_RDWR);
  void *shared = mmap(NULL, sizeof *seen, PROT_READ | PROT_WRITE, MAP_SHARED, file, 0);
  if (shared == MAP_FAILED) abort();
  at = atol(getenv("FAULTS_AT"));
  on = *getenv("FAULTS_ON") == '1';
  of_threads = strcmp(getenv("FAULTS_OF"), "threads") == 0;
  seen = shared; /* From here on it is counted: what the loader asked for before is not. */
}

static int refused(int of_thread) {
  if (!seen || of_thread != of_threads) return 0;
  long number = atomic_fetch_add(seen, 1) + 1;
  return at && (number == at || (on && number > at));
}

static void *nothing(void) {
  errno = ENOMEM;
  return NULL;
}

void *malloc(size_t size) {
  return refused(0) ? nothing() : __libc_malloc(size);
}

void *calloc(size_t count, size_t size) {
  return refused(0) ? nothing() : __libc_calloc(count, size);
}

void *realloc(void *old, size_t size) {
  return refused(0) ? nothing() : __libc_realloc(old, size);
}

void *aligned_alloc(size_t align, size_t size) {
  return refused(0) ? nothing() : __libc_memalign(align, size);
}

int posix_memalign(void **made, size_t align, size_t size) {
  void *memory = refused(0) ? NULL : __libc_memalign(align, size);
  if (!memory) return ENOMEM;
  *made = memory;
  return 0;
}

int pthread_create(pthread_t *made, const pthread_attr_t *how, void *(*run)(void *), void *with) {
  return refused(1) ? EAGAIN : make(made, how, run, with);
}
