// Two threads wait while the first one changes the ids of the process: libc has all three make each
// call. Then a third thread executes a program, with which the others end.
#define _GNU_SOURCE
#include <grp.h>
#include <pthread.h>
#include <unistd.h>

static int ends[2];

static void *wait_here(void *unused) {
  char byte;
  read(ends[0], &byte, 1);
  return unused;
}

static void *execute(void *unused) {
  execl("/usr/bin/setpriv", "setpriv", "--dump", (char *)0);
  return unused;
}

int main(void) {
  pthread_t threads[3];
  gid_t groups[] = {50, 40};
  pipe(ends);
  for (int i = 0; i < 2; i++) pthread_create(&threads[i], 0, wait_here, 0);
  setgroups(2, groups);
  setresgid(65534, 65534, 65534);
  setresuid(65534, 65534, 0);
  seteuid(0);
  setuid(65534);
  setuid(0);
  pthread_create(&threads[2], 0, execute, 0);
  pthread_join(threads[2], 0);
  return 1;
}
