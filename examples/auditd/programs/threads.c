/* Threads: ids by all of them, by one alone, and then by all, which that one can't follow. */
#define _GNU_SOURCE
#include <pthread.h>
#include <sys/syscall.h>
#include <unistd.h>

static pthread_barrier_t turn;

static void *waits(void *alone) {
  pthread_barrier_wait(&turn);
  if (alone) syscall(SYS_setresuid, 3002, 3002, 3002);
  pthread_barrier_wait(&turn);
  for (;;) pause();
}

int main(void) {
  pthread_t thread;
  pthread_barrier_init(&turn, 0, 4);
  for (int number = 0; number < 3; number++)
    pthread_create(&thread, 0, waits, number == 1 ? &turn : 0);
  seteuid(3001);
  seteuid(0);
  setegid(2000);
  pthread_barrier_wait(&turn);
  pthread_barrier_wait(&turn);
  setresuid(3001, 3001, 0);
  return 0;
}
