// The actor's programs, roots, mounts, namespaces, and changes of files.
#define _GNU_SOURCE
#include <fcntl.h>
#include <sched.h>
#include <signal.h>
#include <stdio.h>
#include <string.h>
#include <sys/mman.h>
#include <sys/mount.h>
#include <sys/stat.h>
#include <sys/syscall.h>
#include <sys/wait.h>
#include <sys/xattr.h>
#include <unistd.h>

#include "actor.h"

// A descriptor of a copy in memory; the original where that can't be read.
static int copied(int from) {
  int to = memfd_create("copy", 0);
  char bytes[1 << 16];
  ssize_t count;
  while ((count = read(from, bytes, sizeof bytes)) > 0) (void)!write(to, bytes, count);
  close(from);
  return to;
}

void execute(unsigned steps) {
  static const char *const ways[] = {"tool%u", "./tool%u", "/tool%u", "jail/../tool%u",
                                     "again/tool%u", "tool%u", "link/tool%u", "script%u",
                                     "to-tool%u"};
  char name[64], seed[16], count[16];
  snprintf(name, sizeof name, ways[pick(9)], pick(FILES));
  snprintf(seed, sizeof seed, "%u", pick(1u << 30));
  snprintf(count, sizeof count, "%u", steps);
  char *const words[] = {"actor", seed, count, NULL};
  char *const none[] = {NULL};
  switch (pick(8)) {
    case 0: execve("/proc/self/exe", words, none); break;
    case 1: syscall(SYS_execveat, open(name, O_PATH), "", words, none, AT_EMPTY_PATH); break;
    case 2: syscall(SYS_execveat, open(".", O_PATH | O_DIRECTORY), name, words, none, 0); break;
    case 3:
      syscall(SYS_execveat, copied(open(name, O_RDONLY)), "", words, none, AT_EMPTY_PATH);
      break;
    default: execve(name, words, none);
  }
}

static void write_to(const char *name, const char *text) {
  int to = open(name, O_WRONLY);
  if (to < 0) return;
  (void)!write(to, text, strlen(text));
  close(to);
}

// Maps the ids of a process's namespace: the caller's own alone, or many.
static void map(const char *process) {
  char name[64], text[64];
  unsigned many = pick(2);
  snprintf(name, sizeof name, "/proc/%s/setgroups", process);
  if (!pick(3)) write_to(name, "deny");
  snprintf(name, sizeof name, "/proc/%s/uid_map", process);
  snprintf(text, sizeof text, many ? "0 0 70000" : "%u %u 1", pick(2) ? 0 : 1000, geteuid());
  write_to(name, text);
  snprintf(name, sizeof name, "/proc/%s/gid_map", process);
  snprintf(text, sizeof text, many ? "0 0 70000" : "%u %u 1", pick(2) ? 0 : 1000, getegid());
  write_to(name, text);
}

static void new_user_namespace(void) {
  if (unshare(CLONE_NEWUSER | (pick(2) ? CLONE_NEWNS : 0)) == 0 && pick(4)) map("self");
}

// A child in a user namespace, whose maps the parent writes, which goes on there, or is entered.
static void child_namespace(void) {
  int gate[2];
  if (pipe(gate)) return;
  pid_t made = syscall(SYS_clone, CLONE_NEWUSER | SIGCHLD, 0, 0, 0, 0);
  char byte, name[64];
  if (made == 0) {
    close(gate[1]);
    (void)!read(gate[0], &byte, 1);
    run(4);
    _exit(0);
  }
  if (made > 0) {
    snprintf(name, sizeof name, "%d", made);
    map(name);
    snprintf(name, sizeof name, "/proc/%d/ns/user", made);
    if (!pick(3)) {
      int space = pick(2) ? open(name, O_RDONLY) : (int)syscall(SYS_pidfd_open, made, 0);
      syscall(SYS_setns, space, CLONE_NEWUSER);
    }
  }
  close(gate[1]);
  close(gate[0]);
  if (made > 0) waitpid(made, NULL, 0);
}

// A mount namespace in which `jail` is seen at `again` too, perhaps without its set-id bits.
static void mounts(void) {
  if (unshare(CLONE_NEWNS)) return;
  static const unsigned long seen[] = {MS_PRIVATE, MS_PRIVATE, MS_SLAVE, MS_SHARED};
  mount(NULL, "/", NULL, MS_REC | seen[pick(4)], NULL);
  if (mount("jail", "again", NULL, MS_BIND, NULL)) return;
  static const unsigned long flags[] = {0, MS_NOSUID, MS_NOEXEC};
  unsigned which = pick(3);
  if (which) mount(NULL, "again", NULL, MS_REMOUNT | MS_BIND | flags[which], NULL);
}

// The attribute of a program: of one capability, or bytes that are none.
static void set_attribute(const char *name) {
  unsigned char bytes[20] = {pick(2), 0, 0, pick(8) ? 2 : 7, pick(256), pick(256), 0, 0, pick(4)};
  setxattr(name, "security.capability", bytes, pick(8) ? 20 : 8, 0);
}

// The owner, perhaps that of a link itself or by a descriptor.
static void set_owner(const char *name) {
  static const int owners[] = {0, 1000, 1001, -1};
  int owner = owners[pick(4)], group = owners[pick(4)], file;
  switch (pick(4)) {
    case 0: (void)!lchown(name, owner, group); break;
    case 1:
      file = open(name, O_RDONLY);
      (void)!fchown(file, owner, group);
      close(file);
      break;
    default: (void)!chown(name, owner, group);
  }
}

// A change of a program's file, by one of its names.
static void change(void) {
  static const char *const ways[] = {"tool%u", "./tool%u", "to-tool%u", "link/tool%u", "note%u"};
  char name[32], more[32], bytes[24];
  struct stat status;
  snprintf(name, sizeof name, ways[pick(5)], pick(FILES));
  snprintf(more, sizeof more, "more%u", pick(100));
  switch (pick(12)) {
    case 0: case 1: chmod(name, 0755 | pick(8) << 9); break;
    case 2: case 3: set_owner(name); break;
    case 4: removexattr(name, "security.capability"); break;
    case 5: set_attribute(name); break;
    case 6: (void)!fchmodat(AT_FDCWD, name, pick(2) ? 04755 : 02644, 0); break;
    case 7: if (!pick(3)) unlink("link"), (void)!symlink("jail", "link"); break;
    case 8: if (!pick(3)) close(open(name, O_RDWR)); break;
    case 9: if (link(name, more) == 0 && pick(2)) chmod(more, 04755); break;
    case 10: if (!pick(3)) rename(name, "gone"); break;
    default: break;
  }
  stat(name, &status);
  getxattr(name, "security.capability", bytes, sizeof bytes);
}

void rare_step(void) {
  switch (pick(15)) {
    case 0: new_user_namespace(); break;
    case 1: case 2: child_namespace(); break;
    case 3: if (chroot("jail") == 0 && pick(2)) (void)!chdir("/"); break;
    case 4: (void)!chdir(pick(2) ? "jail" : ".."); break;
    case 5: case 6: mounts(); break;
    case 7: case 13: case 14: change(); break;
    case 8: unshare(CLONE_NEWPID); break;
    case 10: (void)!fchdir(open(pick(2) ? "jail" : "/", O_RDONLY | O_DIRECTORY)); break;
    case 9: unshare(CLONE_FS | CLONE_FILES); break;
    default: execute(3);
  }
}
