// Executes programs by descriptors: O_PATH and execveat(2), a copy of it by dup(2), a memfd that holds
// the program, fexecve(3), and a set-user-ID file whose name is gone when it is executed.
#define _GNU_SOURCE
#include <fcntl.h>
#include <stdio.h>
#include <sys/mman.h>
#include <sys/sendfile.h>
#include <sys/syscall.h>
#include <sys/wait.h>
#include <unistd.h>

static char *words[] = {"setpriv", "--dump", NULL};

static void by_descriptor(int descriptor) {
  if (fork() == 0) {
    syscall(SYS_execveat, descriptor, "", words, environ, AT_EMPTY_PATH);
    _exit(1);
  }
  wait(NULL);
}

int main(void) {
  int program = open("/usr/bin/setpriv", O_PATH | O_CLOEXEC);
  by_descriptor(program);
  by_descriptor(dup(program));
  int kept = memfd_create("kept", MFD_CLOEXEC);
  int source = open("/usr/bin/setpriv", O_RDONLY);
  while (sendfile(kept, source, NULL, 1 << 20) > 0) {
  }
  by_descriptor(kept);
  if (fork() == 0) {
    fexecve(open("/usr/bin/setpriv", O_RDONLY), words, environ);
    _exit(1);
  }
  wait(NULL);
  int folder = open("/usr", O_PATH | O_DIRECTORY);
  if (fork() == 0) {
    syscall(SYS_execveat, folder, "bin/setpriv", words, environ, 0);
    _exit(1);
  }
  wait(NULL);
  char path[32];
  snprintf(path, sizeof path, "/proc/self/fd/%d", program);
  if (fork() == 0) {
    execv(path, words);
    _exit(1);
  }
  wait(NULL);
  return 0;
}
