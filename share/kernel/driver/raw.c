/* What the compiler and raw.h ask for: the entry, threads, texts and copies. */
#include "raw.h"

/* The first code of the program hands the stack, where the words are, to begin(). */
#if defined(__x86_64__)
__asm__(
    ".globl _start\n"
    "_start: xor %ebp, %ebp\n"
    "mov %rsp, %rdi\n"
    "and $-16, %rsp\n"
    "call begin\n"
    "hlt\n"
    ".globl thread\n"
    "thread: and $-16, %rsi\n"
    "sub $16, %rsi\n"
    "mov %rdx, (%rsi)\n"
    "mov %rcx, 8(%rsi)\n"
    "xor %edx, %edx\n"
    "mov %r8, %r10\n"
    "xor %r8d, %r8d\n"
    "mov $56, %eax\n"
    "syscall\n"
    "test %rax, %rax\n"
    "jnz 1f\n"
    "xor %ebp, %ebp\n"
    "pop %rdx\n"
    "pop %rdi\n"
    "call *%rdx\n"
    "hlt\n"
    "1: ret\n"
    ".section .note.GNU-stack,\"\",@progbits\n"
    ".text\n");
#elif defined(__aarch64__)
__asm__(
    ".globl _start\n"
    "_start: mov x29, #0\n"
    "mov x0, sp\n"
    "bl begin\n"
    ".globl thread\n"
    "thread: and x1, x1, #-16\n"
    "stp x2, x3, [x1, #-16]!\n"
    "mov x2, #0\n"
    "mov x3, #0\n"
    "mov x8, #220\n"
    "svc #0\n"
    "cbnz x0, 1f\n"
    "ldp x1, x0, [sp], #16\n"
    "blr x1\n"
    "1: ret\n"
    ".section .note.GNU-stack,\"\",@progbits\n"
    ".text\n");
#endif

char *put(char *to, const char *text) {
  while (*text)
    *to++ = *text++;
  *to = 0;
  return to;
}

static char *put_based(char *to, u64 number, unsigned base) {
  char digits[24];
  int n = 0;
  do
    digits[n++] = "0123456789abcdef"[number % base];
  while (number /= base);
  while (n)
    *to++ = digits[--n];
  *to = 0;
  return to;
}

char *put_number(char *to, u64 number) {
  return put_based(to, number, 10);
}

char *put_hex(char *to, u64 number) {
  return put_based(to, number, 16);
}

/* The barriers keep the compiler from seeing that these loops are memset and memcpy. */
void *memset(void *to, int byte, size_t n) {
  for (char *at = to; n--; *at++ = (char)byte)
    __asm__ volatile("" ::: "memory");
  return to;
}

void *memcpy(void *to, const void *from, size_t n) {
  const char *source = from;
  for (char *at = to; n--; *at++ = *source++)
    __asm__ volatile("" ::: "memory");
  return to;
}
