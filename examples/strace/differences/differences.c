// Calls of which docs/LINUX.md says that the kernel answers otherwise than a report.
#define _GNU_SOURCE
#include <sys/fsuid.h>
#include <sys/prctl.h>
#include <unistd.h>

int main(void) {
  prctl(PR_SET_SECUREBITS, 1 << 8);
  prctl(PR_SET_SECUREBITS, 0);
  setfsuid(5);
  setresuid(-1, -1, -1);
  setfsuid(0);
  return 0;
}
