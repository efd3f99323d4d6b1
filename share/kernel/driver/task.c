/* A task: it waits at its slot, makes the call that stands there, and leaves the answer. */
#include "world.h"

#include <linux/capability.h>
#include <linux/fcntl.h>
#include <linux/futex.h>
#include <linux/prctl.h>
#include <linux/sched.h>
#include <linux/time_types.h>

/* From asm/fcntl.h and others, which can't be included beside linux/fcntl.h everywhere. */
enum { TEXT_BUSY = 26, READ_ONLY = 0, NONBLOCK = 04000, CLOSE_ON_EXEC = 02000000 };
enum { CHILD_SIGNAL = 17, STACK = 16384 };
enum { PAGES_READ_WRITE = 3, PAGES_SHARED = 1 };
#define NO_ID ((u32)-1)
#define THREAD (CLONE_FS | CLONE_FILES | CLONE_SIGHAND | CLONE_THREAD | CLONE_SYSVSEM)

struct world *world;

int await(int *turn, int wanted, int seconds) {
  struct __kernel_timespec limit = {seconds, 0};
  int now;
  while ((now = __atomic_load_n(turn, __ATOMIC_ACQUIRE)) != wanted) {
    long r = call4(__NR_futex, turn, FUTEX_WAIT, now, seconds ? &limit : 0);
    if (r == -110)
      return 0;
  }
  return 1;
}

void give(int *turn, int value) {
  __atomic_store_n(turn, value, __ATOMIC_RELEASE);
  call3(__NR_futex, turn, FUTEX_WAKE, 1);
}

u32 inside(const struct slot *slot, u32 id) {
  return id == 0 ? slot->root : id == slot->root ? 0 : id;
}

/* seteuid(2) and setegid(2) are libc's: `-1` is EINVAL there, all else the kernel's
 * setresuid(2). */
static long set_effective(long call, u32 id) {
  return id == NO_ID ? -EINVAL_ : call3(call, NO_ID, id, NO_ID);
}

static long set_groups(const struct slot *slot) {
  for (u32 i = 0; i < world->count; i++)
    world->groups[i] = inside(slot, world->groups[i]);
  return call2(__NR_setgroups, world->count, world->groups);
}

static long set_ids(const struct slot *slot) {
  u32 ids[3];
  for (int i = 0; i < 3; i++)
    ids[i] = inside(slot, (u32)slot->args[i + 1]);
  switch (slot->args[0]) {
  case SETUID: return call1(__NR_setuid, ids[0]);
  case SETEUID: return set_effective(__NR_setresuid, ids[0]);
  case SETREUID: return call2(__NR_setreuid, ids[0], ids[1]);
  case SETRESUID: return call3(__NR_setresuid, ids[0], ids[1], ids[2]);
  case SETGID: return call1(__NR_setgid, ids[0]);
  case SETEGID: return set_effective(__NR_setresgid, ids[0]);
  case SETREGID: return call2(__NR_setregid, ids[0], ids[1]);
  case SETRESGID: return call3(__NR_setresgid, ids[0], ids[1], ids[2]);
  default: return set_groups(slot);
  }
}

static long set_fs(const struct slot *slot) {
  u32 id = inside(slot, (u32)slot->args[1]);
  return inside(slot, (u32)call1(slot->args[0] ? __NR_setfsgid : __NR_setfsuid, id));
}

static long set_caps(const struct slot *slot) {
  struct __user_cap_header_struct head = {_LINUX_CAPABILITY_VERSION_3, 0};
  struct __user_cap_data_struct data[2];
  for (int i = 0; i < 2; i++) {
    data[i].permitted = (u32)((u64)slot->args[0] >> 32 * i);
    data[i].inheritable = (u32)((u64)slot->args[1] >> 32 * i);
    data[i].effective = (u32)((u64)slot->args[2] >> 32 * i);
  }
  return call2(__NR_capset, &head, data);
}

static long open_file(const struct slot *slot) {
  long flags = slot->args[0] | NONBLOCK, number = slot->args[1];
  if (number && call3(__NR_fcntl, FILE_FD + number, F_GETFD, 0) >= 0)
    return -EEXIST_;
  long fd = call4(__NR_openat, AT_FDCWD, world->path, flags, 0);
  if (fd < 0)
    return fd;
  if (number)
    call3(__NR_dup3, fd, FILE_FD + number, 0);
  call1(__NR_close, fd);
  return 0;
}

/* faccessat2(2). Where open(2) asks the same, both must agree; that a program which runs isn't
 * opened for writing comes after the check. */
static long may(const struct slot *slot) {
  long mode = slot->args[0], flags = slot->args[1], open_flags = slot->args[2];
  long found = call4(__NR_faccessat2, AT_FDCWD, world->path, mode, flags);
  if (open_flags < 0)
    return found;
  long fd = call4(__NR_openat, AT_FDCWD, world->path, open_flags | NONBLOCK, 0);
  if (fd >= 0)
    call1(__NR_close, fd);
  if ((fd < 0 && fd != -TEXT_BUSY ? fd : 0) == found)
    return found;
  char *to = put(world->text, "disagree faccessat2 ");
  to = put(put_number(to, (u64)-found), " open ");
  put_number(to, fd < 0 ? (u64)-fd : 0);
  return -1000;
}

static long execute(struct slot *slot) {
  char fd[24], number[24];
  tell_before();
  put_number(fd, WORLD_FD);
  put_number(number, (u64)(slot - world->slots));
  char *words[] = {world->path, "task", fd, number, 0}, *none[] = {0};
  return call3(__NR_execve, world->path, words, none);
}

/* Each slot has a stack. An executed program has them anew. */
static char stacks[SLOTS][STACK] __attribute__((aligned(16)));

/* A thread of this process, or a process beside it: it begins at its own slot. A child has the
 * memory of who makes it, which is quicker than a copy, and is no matter of credentials; its parent
 * is the one that all tasks are children of. */
static long start(struct slot *slot, long flags) {
  struct slot *born = &world->slots[slot->args[0]];
  born->gone = 1;
  char *stack = stacks[slot->args[0]] + STACK;
  flags |= CLONE_VM | CLONE_CHILD_CLEARTID;
  long tid = thread(flags, stack, live_at, born, &born->gone);
  if (tid == -EINVAL_ && flags & CLONE_PARENT) /* A kernel may be without it. */
    tid = thread(flags & ~(long)CLONE_PARENT, stack, live_at, born, &born->gone);
  born->tid = (int)tid;
  born->pid = flags & CLONE_THREAD ? slot->pid : (int)tid;
  return tid < 0 ? tid : 0;
}

/* The keeper of a user namespace, whose descriptors are shared until its maps are written. */
static long start_keeper(struct slot *slot) {
  struct slot *born = &world->slots[slot->args[0]];
  long beside = slot->number ? CLONE_PARENT : 0;
  long pid = copy(CLONE_NEWUSER | CLONE_FILES | beside | CHILD_SIGNAL);
  if (pid == 0) {
    world->directory = (int)call4(__NR_openat, AT_FDCWD, "/proc/self", O_PATH, 0);
    give(&born->turn, DONE);
    live_at(born);
  }
  born->pid = born->tid = (int)pid;
  return pid < 0 ? pid : 0;
}

/* Leaves in the text which call was refused. */
static long noted(const char *call, long found) {
  if (found < 0)
    put(world->text, call);
  return found;
}

static long write_map(const char *name, const char *text) {
  long fd = noted("open(2) of a map in /proc", call4(__NR_openat, world->directory, name, 1, 0));
  if (fd < 0)
    return fd;
  long done = noted("write(2) of a map in /proc", call3(__NR_write, fd, text, length(text)));
  call1(__NR_close, fd);
  return done < 0 ? done : 0;
}

/* The maps are written by the one above, who has the capabilities there. It reaches them through
 * the child's directory of /proc, since it may be that its number there isn't known. */
long make_namespace(struct slot *keeper) {
  struct slot *born = &world->slots[keeper->args[0]];
  born->turn = GO;
  long found = noted("clone(2), CLONE_NEWUSER", start_keeper(keeper));
  if (found < 0)
    return found;
  if (!await(&born->turn, DONE, 20))
    return -EINTR_;
  found = write_map("uid_map", world->map);
  if (found == 0)
    found = write_map("gid_map", world->map);
  call1(__NR_close, world->directory);
  __atomic_store_n(&born->turn, IDLE, __ATOMIC_RELEASE);
  return found;
}

/* The first task's credential, made by one with all capabilities. */
static long become(const struct slot *slot) {
  u32 user = inside(slot, (u32)slot->args[0]), group = inside(slot, (u32)slot->args[1]);
  long found = slot->args[2] ? 0 : noted("setgroups(2)", call2(__NR_setgroups, 0, 0));
  if (found == 0)
    found = noted("setresgid(2)", call3(__NR_setresgid, group, group, group));
  if (found == 0)
    found = noted("setresuid(2)", call3(__NR_setresuid, user, user, user));
  /* A keeper writes the maps of its children, in their directories of /proc. */
  if (slot->number >= SPACE)
    call2(__NR_prctl, PR_SET_DUMPABLE, 1);
  return found;
}

static long make(struct slot *slot) {
  const long *args = slot->args;
  switch (slot->op) {
  case ID_CALL: return set_ids(slot);
  case FS_CALL: return set_fs(slot);
  case CAPSET: return set_caps(slot);
  case PRCTL: return call5(__NR_prctl, args[0], args[1], args[2], 0, 0);
  case EXECVE: return execute(slot);
  case OPEN: return open_file(slot);
  case CLOSE: return call1(__NR_close, FILE_FD + args[0]);
  case ACCESS: return may(slot);
  case SIGNAL: return call3(__NR_tgkill, args[0], args[1], 0);
  case SPAWN: return start(slot, THREAD);
  case FORK: return start(slot, CLONE_PARENT | CHILD_SIGNAL);
  case ASK: return answer(slot, (enum query)args[0], (u32)args[1]);
  case BECOME: return become(slot);
  case NAMESPACE: return make_namespace(slot);
  default: return 0;
  }
}

void live_at(void *at) {
  struct slot *slot = at;
  for (;;) {
    await(&slot->turn, GO, 0);
    if (slot->op == EXIT) {
      give(&slot->turn, DONE);
      call1(__NR_exit, 0);
    }
    world->text[0] = 0;
    slot->result = make(slot);
    give(&slot->turn, DONE);
  }
}

static long number_of(const char *digits) {
  long n = 0;
  while (*digits)
    n = n * 10 + *digits++ - '0';
  return n;
}

/* How many threads the process has, as /proc tells. */
static int threads(void) {
  char entries[2048];
  long fd = call4(__NR_openat, AT_FDCWD, "/proc/self/task", READ_ONLY, 0), n, found = 0;
  while ((n = call3(__NR_getdents64, fd, entries, sizeof entries)) > 0)
    for (long at = 0; at < n; at += *(unsigned short *)(entries + at + 16))
      found += entries[at + 19] != '.';
  call1(__NR_close, fd);
  return (int)found;
}

void go_on(const char *fd, const char *slot) {
  long size = sizeof(struct world), at = number_of(fd);
  world = (struct world *)call6(__NR_mmap, 0, size, PAGES_READ_WRITE, PAGES_SHARED, at, 0);
  if ((u64)world > (u64)-4096)
    leave(99);
  struct slot *mine = &world->slots[number_of(slot)];
  mine->tid = (int)call0(__NR_gettid);
  mine->pid = (int)call0(__NR_getpid);
  world->threads = threads();
  tell_after(mine);
  mine->result = 0;
  give(&mine->turn, DONE);
  live_at(mine);
}
