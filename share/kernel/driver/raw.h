/* System calls made raw, and the little that a program without a C library needs.
 *
 * Nothing stands between a script's call and the kernel: no wrapper that has other threads make the
 * call too, no errno that threads share. The program is static, so that it can be executed from any
 * file system, by any user.
 */
#ifndef RAW_H
#define RAW_H

#include <asm/unistd.h>
#include <stddef.h>

typedef unsigned int u32;
typedef unsigned long long u64;

enum {
  EPERM_ = 1, ENOENT_ = 2, EINTR_ = 4, EBADF_ = 9, EACCES_ = 13, EEXIST_ = 17, EINVAL_ = 22
};

static inline long call6(long n, long a, long b, long c, long d, long e, long f) {
#if defined(__x86_64__)
  long r;
  register long r10 __asm__("r10") = d;
  register long r8 __asm__("r8") = e;
  register long r9 __asm__("r9") = f;
  __asm__ volatile("syscall"
                   : "=a"(r)
                   : "a"(n), "D"(a), "S"(b), "d"(c), "r"(r10), "r"(r8), "r"(r9)
                   : "rcx", "r11", "memory");
  return r;
#elif defined(__aarch64__)
  register long x8 __asm__("x8") = n;
  register long x0 __asm__("x0") = a;
  register long x1 __asm__("x1") = b;
  register long x2 __asm__("x2") = c;
  register long x3 __asm__("x3") = d;
  register long x4 __asm__("x4") = e;
  register long x5 __asm__("x5") = f;
  __asm__ volatile("svc #0"
                   : "+r"(x0)
                   : "r"(x8), "r"(x1), "r"(x2), "r"(x3), "r"(x4), "r"(x5)
                   : "memory");
  return x0;
#else
#error "raw system calls are written for x86_64 and aarch64"
#endif
}

#define call0(n) call6(n, 0, 0, 0, 0, 0, 0)
#define call1(n, a) call6(n, (long)(a), 0, 0, 0, 0, 0)
#define call2(n, a, b) call6(n, (long)(a), (long)(b), 0, 0, 0, 0)
#define call3(n, a, b, c) call6(n, (long)(a), (long)(b), (long)(c), 0, 0, 0)
#define call4(n, a, b, c, d) call6(n, (long)(a), (long)(b), (long)(c), (long)(d), 0, 0)
#define call5(n, a, b, c, d, e) \
  call6(n, (long)(a), (long)(b), (long)(c), (long)(d), (long)(e), 0)

/* A new thread or process that runs this on this stack; its flags are those of clone(2). `gone` is
 * the word that CLONE_CHILD_CLEARTID clears. */
long thread(long flags, void *stack, void (*run)(void *), void *with, int *gone);

/* A new process that goes on here, as fork(2): 0 in the child. */
static inline long copy(long flags) {
  return call5(__NR_clone, flags, 0, 0, 0, 0);
}

static inline void leave(int status) {
  for (;;)
    call1(__NR_exit_group, status);
}

static inline size_t length(const char *text) {
  size_t n = 0;
  while (text[n])
    n++;
  return n;
}

static inline int same(const char *one, const char *other) {
  while (*one && *one == *other)
    one++, other++;
  return *one == *other;
}

/* Texts are appended to a buffer, which has room for them. */
char *put(char *to, const char *text);
char *put_number(char *to, u64 number);
char *put_hex(char *to, u64 number);

void *memset(void *to, int byte, size_t n);
void *memcpy(void *to, const void *from, size_t n);

#endif
