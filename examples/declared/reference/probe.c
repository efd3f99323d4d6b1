/* Says its own credential by system calls alone: no /proc is needed, so it runs in any root. */
#define _GNU_SOURCE
#include <grp.h>
#include <linux/capability.h>
#include <stdio.h>
#include <sys/fsuid.h>
#include <sys/prctl.h>
#include <sys/syscall.h>
#include <unistd.h>

#define LAST 40
#define GROUPS 2000
#define SET(field) ((unsigned long long)data[1].field << 32 | data[0].field)

int main(void) {
  uid_t real, effective, saved;
  getresuid(&real, &effective, &saved);
  printf("uid %u %u %u %u\n", real, effective, saved, (unsigned)setfsuid(-1));
  gid_t real_group, effective_group, saved_group;
  getresgid(&real_group, &effective_group, &saved_group);
  printf("gid %u %u %u %u\n", real_group, effective_group, saved_group, (unsigned)setfsgid(-1));
  gid_t groups[GROUPS];
  int count = getgroups(GROUPS, groups);
  printf("groups");
  for (int i = 0; i < count; i++) printf(" %u", groups[i]);
  printf("\n");
  struct __user_cap_header_struct header = {_LINUX_CAPABILITY_VERSION_3, 0};
  struct __user_cap_data_struct data[2];
  if (syscall(SYS_capget, &header, data)) return 9;
  unsigned long long bounding = 0, ambient = 0;
  for (int i = 0; i <= LAST; i++) {
    if (prctl(PR_CAPBSET_READ, i, 0, 0, 0) == 1) bounding |= 1ULL << i;
    if (prctl(PR_CAP_AMBIENT, PR_CAP_AMBIENT_IS_SET, i, 0, 0) == 1) ambient |= 1ULL << i;
  }
  printf("caps %llx %llx %llx %llx %llx\n", SET(permitted), SET(inheritable), SET(effective),
         bounding, ambient);
  printf("bits %d %d\n", prctl(PR_GET_SECUREBITS, 0, 0, 0, 0),
         prctl(PR_GET_NO_NEW_PRIVS, 0, 0, 0, 0));
  return fflush(stdout) ? 8 : 0;
}
