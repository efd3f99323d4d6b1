// Three threads: the second one gives up all capabilities but CAP_SETGID before strace comes, and all
// change their group afterwards.
#define _GNU_SOURCE
#include <linux/capability.h>
#include <pthread.h>
#include <sys/syscall.h>
#include <unistd.h>

static void *gives_up(void *none) {
  struct __user_cap_header_struct head = {_LINUX_CAPABILITY_VERSION_3, 0};
  struct __user_cap_data_struct sets[2] = {{0x40, 0x40, 0}, {0, 0, 0}};
  syscall(SYS_capset, &head, sets);
  sleep(3);
  syscall(SYS_capget, &head, sets);
  return none;
}

static void *waits(void *none) {
  sleep(3);
  getegid();
  return none;
}

int main(void) {
  pthread_t one, other;
  pthread_create(&one, NULL, gives_up, NULL);
  pthread_create(&other, NULL, waits, NULL);
  sleep(2);
  if (setresgid(1000, 1000, 1000)) {
    return 1;
  }
  pthread_join(one, NULL);
  pthread_join(other, NULL);
  return 0;
}
