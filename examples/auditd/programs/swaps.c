/* A set-id program changes between its ids, and gives them up. */
#define _GNU_SOURCE
#include <sys/fsuid.h>
#include <unistd.h>

int main(void) {
  uid_t real = getuid(), other = geteuid();
  gid_t group = getgid();
  seteuid(real);
  setfsuid(other);
  seteuid(other);
  setresgid(-1, group, -1);
  setreuid(other, real);
  setreuid(real, real);
  setuid(other);
  setgid(group);
  setgid(0);
  return 0;
}
