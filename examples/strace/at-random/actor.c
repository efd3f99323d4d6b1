// A program that does at random what changes and asks credentials, for run beside it:
//
//     actor SEED STEPS
//
// It stands in a folder with copies of itself of all owners, modes and attributes, `tool0` and so
// on, and with files `note0` and so on; the same lie in its folder `jail`. A child, a thread and a
// program that it executes go on with a seed of their own. What fails is as good as what succeeds.
#define _GNU_SOURCE
#include <errno.h>
#include <fcntl.h>
#include <linux/capability.h>
#include <linux/filter.h>
#include <linux/seccomp.h>
#include <pthread.h>
#include <sched.h>
#include <signal.h>
#include <stddef.h>
#include <stdint.h>
#include <stdio.h>
#include <stdlib.h>
#include <string.h>
#include <sys/fsuid.h>
#include <sys/mman.h>
#include <sys/mount.h>
#include <sys/prctl.h>
#include <sys/stat.h>
#include <sys/syscall.h>
#include <sys/wait.h>
#include <grp.h>
#include <unistd.h>

#include "actor.h"

static _Thread_local uint64_t state;
static pid_t child;

// Whether this process keeps its sets, and leaves root for a while only.
static int gentle;

// The next number below a limit (xorshift64*).
unsigned pick(unsigned limit) {
  state ^= state >> 12;
  state ^= state << 25;
  state ^= state >> 27;
  return (unsigned)((state * 2685821657736338717u) >> 33) % limit;
}

static unsigned id(void) {
  static const unsigned ids[] = {0, 0, 1000, 1000, 1001, 5, 65534, 100, 4294967294u, -1, -1, -1};
  return ids[pick(sizeof ids / sizeof *ids)];
}

static void id_call(void) {
  gid_t groups[4] = {id() & 0xffff, 1000, 5, 100};
  switch (pick(9)) {
    case 0: (void)!setuid(id()); break;
    case 1: (void)!setgid(id()); break;
    case 2: (void)!setreuid(id(), id()); break;
    case 3: (void)!setregid(id(), id()); break;
    case 4: (void)!setresuid(id(), id(), id()); break;
    case 5: (void)!setresgid(id(), id(), id()); break;
    case 6: (void)!setgroups(pick(5), groups); break;
    case 7: setfsuid(id()); break;
    default: setfsgid(id());
  }
}

// The same by system calls of the one thread, as no libc spreads them.
static void raw_call(void) {
  gid_t groups[4] = {id() & 0xffff, 1000, 5, 100};
  switch (pick(8)) {
    case 0: syscall(SYS_setuid, id()); break;
    case 1: syscall(SYS_setgid, id()); break;
    case 2: syscall(SYS_setreuid, id(), id()); break;
    case 3: syscall(SYS_setregid, id(), id()); break;
    case 4: syscall(SYS_setresuid, id(), id(), id()); break;
    case 5: syscall(SYS_setresgid, id(), id(), id()); break;
    case 6: syscall(SYS_setgroups, pick(5), groups); break;
    default: syscall(SYS_setresuid, -1, id(), -1);
  }
}

// Changes that can be taken back.
static void gentle_call(void) {
  switch (pick(6)) {
    case 0: (void)!setresuid(-1, id(), -1); break;
    case 1: (void)!setresgid(-1, id(), -1); break;
    case 2: setfsuid(id()); break;
    case 3: (void)!seteuid(getuid()); break;
    case 4: (void)!setreuid(-1, 0); break;
    default: (void)!setresuid(-1, 0, -1);
  }
}

static uint64_t a_set(void) {
  switch (pick(5)) {
    case 0: return 0;
    case 1: return (1ull << 41) - 1;
    case 2: return 1ull << pick(41);
    case 3: return (1ull << CAP_SETUID) | (1ull << CAP_SETGID) | (1ull << CAP_SETPCAP);
    default: return ((uint64_t)pick(1u << 20) << 21) ^ pick(1u << 30);
  }
}

// A third of the calls keeps what is there, so that some of them succeed.
static void sets(void) {
  static const unsigned versions[] = {0x19980330, 0x20071026, 0x20080522, 0x20080522};
  struct __user_cap_header_struct header = {versions[pick(4)], 0};
  struct __user_cap_data_struct data[2] = {{0}};
  syscall(SYS_capget, &header, data);
  if (!pick(3)) return;
  uint64_t permitted = a_set(), effective = a_set(), inheritable = a_set();
  unsigned kept = pick(4);
  for (int i = 0; i < 2; i++) {
    if (kept) permitted = pick(4) ? ~0ull : permitted;
    data[i].permitted &= permitted >> 32 * i;
    data[i].effective = data[i].permitted & (kept > 1 ? ~0u : (uint32_t)(effective >> 32 * i));
    if (kept == 3) data[i].inheritable = data[i].permitted & (inheritable >> 32 * i);
  }
  syscall(SYS_capset, &header, data);
}

static void option(void) {
  unsigned cap = pick(43);
  switch (pick(14)) {
    case 12: prctl(PR_GET_DUMPABLE); break;
    case 13: prctl(PR_SET_DUMPABLE, pick(3)); break;
    case 0: prctl(PR_SET_KEEPCAPS, pick(3)); break;
    case 1: prctl(PR_GET_KEEPCAPS); break;
    case 2: prctl(PR_CAPBSET_READ, cap); break;
    case 3: prctl(PR_CAPBSET_DROP, cap); break;
    case 4: prctl(PR_CAP_AMBIENT, PR_CAP_AMBIENT_RAISE, cap, 0, 0); break;
    case 5: prctl(PR_CAP_AMBIENT, PR_CAP_AMBIENT_LOWER, cap, 0, 0); break;
    case 6: prctl(PR_CAP_AMBIENT, PR_CAP_AMBIENT_CLEAR_ALL, pick(5) ? 0 : 5, 0, 0); break;
    case 7: prctl(PR_CAP_AMBIENT, PR_CAP_AMBIENT_IS_SET, cap, 0, 0); break;
    case 8: prctl(PR_SET_SECUREBITS, pick(3) ? 1u << pick(9) : pick(0x1000)); break;
    case 9: prctl(PR_GET_SECUREBITS); break;
    case 10: prctl(PR_GET_NO_NEW_PRIVS, 0, 0, 0, 0); break;
    default: if (!pick(4)) prctl(PR_SET_NO_NEW_PRIVS, 1, 0, 0, 0);
  }
}

static void question(void) {
  uid_t a, b, c;
  gid_t groups[64];
  switch (pick(6)) {
    case 0: getresuid(&a, &b, &c); break;
    case 1: getresgid(&a, &b, &c); break;
    case 2: getgroups(64, groups); break;
    case 3: geteuid(); break;
    case 4: getegid(); break;
    default: getuid();
  }
}

static void of_file(void) {
  char name[32];
  int wants[] = {R_OK, W_OK, X_OK, R_OK | W_OK, R_OK | X_OK};
  snprintf(name, sizeof name, "%s%u", pick(3) ? "note" : "tool", pick(FILES));
  switch (pick(4)) {
    case 0: access(name, wants[pick(5)]); break;
    case 1: syscall(SYS_faccessat2, AT_FDCWD, name, wants[pick(5)], AT_EACCESS); break;
    default: close(open(name, pick(2) ? O_RDONLY : *name == 'n' ? O_WRONLY : O_RDONLY));
  }
}

static void signalled(void) {
  static const int signals[] = {0, SIGCONT, SIGURG, SIGWINCH};
  pid_t targets[] = {getppid(), child, 1, getpid(), 0, -1};
  pid_t target = targets[pick(6)];
  if (target > 0) kill(target, signals[pick(4)]);
  else if (!pick(10)) kill(target, 0);
}

// Looks into another task.
static void look(void) {
  char name[32], target[64];
  pid_t other = child > 0 && pick(2) ? child : getppid();
  snprintf(name, sizeof name, "/proc/%d/exe", other);
  if (pick(2)) (void)!readlink(name, target, sizeof target);
  else syscall(SYS_kcmp, getpid(), other, 1 /* KCMP_VM */, 0, 0);
}

// A filter that refuses setfsuid(2) and prctl(2)'s kin a little: by EPERM.
static void filter(void) {
  struct sock_filter code[] = {
    BPF_STMT(BPF_LD | BPF_W | BPF_ABS, offsetof(struct seccomp_data, nr)),
    BPF_JUMP(BPF_JMP | BPF_JEQ | BPF_K, pick(2) ? SYS_setresuid : SYS_capset, 0, 1),
    BPF_STMT(BPF_RET | BPF_K, SECCOMP_RET_ERRNO | EPERM),
    BPF_STMT(BPF_RET | BPF_K, SECCOMP_RET_ALLOW),
  };
  struct sock_fprog program = {4, code};
  prctl(PR_SET_SECCOMP, SECCOMP_MODE_FILTER, &program);
}

// What each thread may do alone.
static void own_step(void) {
  switch (pick(9)) {
    case 8: if (!pick(4)) raw_call(); break;
    case 0: setfsuid(id()); break;
    case 1: setfsgid(id()); break;
    case 2: case 3: sets(); break;
    case 4: case 5: option(); break;
    default: question();
  }
}

static void *thread(void *argument) {
  state = (uint64_t)(uintptr_t)argument;
  for (unsigned count = pick(6); count; count--) own_step();
  usleep(1000 * pick(4));
  if (!pick(12)) execute(1);
  if (!pick(30)) syscall(SYS_setresuid, -1, 1000, -1);
  for (unsigned count = pick(4); count; count--) own_step();
  return NULL;
}

// Threads, with id calls of libc's while they live.
static void threads(void) {
  pthread_t all[3];
  unsigned count = 1 + pick(3);
  for (unsigned i = 0; i < count; i++) {
    uintptr_t seed = 1 + pick(1u << 30);
    if (pthread_create(&all[i], NULL, thread, (void *)seed)) count = i;
  }
  for (unsigned calls = pick(3); calls; calls--) pick(6) ? id_call() : raw_call();
  for (unsigned i = 0; i < count; i++) pthread_join(all[i], NULL);
}

// A child, in a PID namespace of its own or not, which is waited for now or later.
static void forked(unsigned steps) {
  uint64_t seed = 1 + pick(1u << 30);
  long flags = SIGCHLD | (pick(8) ? 0 : CLONE_NEWPID);
  pid_t made = flags == SIGCHLD && pick(2) ? fork() : syscall(SYS_clone, flags, 0, 0, 0, 0);
  if (made == 0) {
    state = seed;
    child = 0;
    gentle = pick(2);
    run(steps / 2);
    _exit(0);
  }
  if (made < 0) return;
  child = made;
  if (pick(3)) {
    waitpid(made, NULL, 0);
    child = 0;
  }
}

// A program that vfork(2) starts, as posix_spawn(3) does.
static void vforked(void) {
  pid_t made = vfork();
  if (made == 0) {
    execute(1);
    _exit(0);
  }
  if (made > 0) waitpid(made, NULL, 0);
}

// One step; the rarer ones are in places.c.
static void step(unsigned left) {
  unsigned which = pick(100);
  if (which < 22 && gentle) gentle_call();
  else if (which < 22) id_call();
  else if (which < 32 && gentle) rare_step();
  else if (which < 32) sets();
  else if (which < 48) option();
  else if (which < 58) question();
  else if (which < 65) of_file();
  else if (which < 68) signalled();
  else if (which < 70) look();
  else if (which < 78) forked(left);
  else if (which < 82) threads();
  else if (which < 90) execute(left);
  else if (which < 91) filter();
  else if (which < 92) setsid();
  else if (which < 93) vforked();
  else rare_step();
}

void run(unsigned steps) {
  for (; steps; steps--) step(steps);
  while (wait(NULL) > 0) {}
}

int main(int count, char **words) {
  alarm(20);
  // A script file's interpreter has the path of that as its first word.
  if (count > 3) words++;
  state = count > 1 ? strtoull(words[1], NULL, 10) * 2654435761u + 1 : 1;
  gentle = pick(2);
  run(count > 2 ? atoi(words[2]) : 30);
  return 0;
}
