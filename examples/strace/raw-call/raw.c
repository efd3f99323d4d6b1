// One of two threads leaves root by a raw system call: the other one is root still.
#define _GNU_SOURCE
#include <pthread.h>
#include <sys/syscall.h>
#include <unistd.h>

static void *leave(void *unused) {
  syscall(SYS_setresuid, 65534, 65534, 65534);
  return unused;
}

int main(void) {
  pthread_t thread;
  setregid(-1, 100);
  pthread_create(&thread, 0, leave, 0);
  pthread_join(thread, 0);
  return getuid() != 0;
}
