// One of three threads leaves root by raw system calls, as a sandbox or Go's runtime does: the others are root
// still, and open root's file. Then libc's setresuid can't be made by the one that left, and the process is ended.
#define _GNU_SOURCE
#include <fcntl.h>
#include <pthread.h>
#include <sys/fsuid.h>
#include <sys/syscall.h>
#include <unistd.h>

static pthread_barrier_t left, looked;

static void look(void) {
  int file = open("secret", O_RDONLY);
  if (file >= 0) close(file);
  geteuid();
}

static void *leave(void *unused) {
  gid_t groups[] = {20, 10};
  syscall(SYS_setgroups, 2, groups);
  syscall(SYS_setresgid, 100, 100, 100);
  syscall(SYS_setresuid, 1000, 1000, 1000);
  look();
  pthread_barrier_wait(&left);
  pthread_barrier_wait(&looked);
  syscall(SYS_setuid, 0);
  pause();
  return unused;
}

static void *stay(void *unused) {
  pthread_barrier_wait(&left);
  look();
  setfsuid(65534);
  look();
  pthread_barrier_wait(&looked);
  pause();
  return unused;
}

int main(void) {
  pthread_t threads[2];
  pthread_barrier_init(&left, 0, 3);
  pthread_barrier_init(&looked, 0, 3);
  if (setresgid(0, 50, 0)) return 1;
  pthread_create(&threads[0], 0, leave, 0);
  pthread_create(&threads[1], 0, stay, 0);
  pthread_barrier_wait(&left);
  look();
  pthread_barrier_wait(&looked);
  usleep(100000);
  // glibc ends a process whose threads don't all succeed or all fail.
  return setresuid(7, 7, 7);
}
