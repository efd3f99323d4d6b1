/* Calls by the numbers of 32-bit x86, which a 64-bit program makes by int 0x80. */
#include <unistd.h>

static long call(long number, long one, long two, long three) {
  long result;
  __asm__ volatile("int $0x80" : "=a"(result) : "a"(number), "b"(one), "c"(two), "d"(three), "S"(0), "D"(0)
                   : "memory");
  return result;
}

int main(void) {
  call(206, 0, 0, 0);            /* setgroups32 */
  call(210, 3001, 3001, 3001);   /* setresgid32 */
  call(208, 3001, 3001, 0);      /* setresuid32 */
  call(203, 0, 3001, 0);         /* setreuid32 */
  call(208, 0xffffffff, 0, 0xffffffff);
  call(139, 2000, 0, 0);         /* setfsgid, of 16 bits */
  call(164, 0xffff, 3001, 3001); /* setresuid, of 16 bits: 65535 keeps the id */
  call(172, 38, 1, 0);           /* prctl, PR_SET_NO_NEW_PRIVS */
  call(213, 3001, 0, 0);         /* setuid32 */
  call(213, 0, 0, 0);
  return 0;
}
