/* What stands before a script's calls: its files, its user namespaces and its first tasks. */
#include "runner.h"

#include <linux/fcntl.h>
#include <linux/mount.h>
#include <linux/loop.h>
#include <linux/sched.h>

enum { READ_WRITE_CREATE = 02 | 0100 | 02000000, CLOEXEC = 02000000, PROGRAM = 1 << 18 };
enum { MANY_INITS = 512 };
#define RECURSIVE 16384

static char program[PROGRAM];
static long program_size;

/* A failure of what is made before the calls: the script can't be run. A task has left in the text
 * which call of its was refused. */
int fails(const char *what, long error) {
  say("failed ");
  say(what);
  if (world->text[0]) {
    say(": ");
    say(world->text);
  }
  say(" ");
  say_number((u64)-error);
  say("\n");
  return 0;
}

static long read_all(const char *path, char *to, long size) {
  long fd = call4(__NR_openat, AT_FDCWD, path, CLOEXEC, 0), n, at = 0;
  while ((n = call3(__NR_read, fd, to + at, size - at)) > 0)
    at += n;
  call1(__NR_close, fd);
  return at;
}

static long mount(const char *source, const char *to, const char *kind, long flags,
                  const char *with) {
  return call5(__NR_mount, source, to, kind, flags, with);
}

static long folder(const char *path) {
  return call3(__NR_mkdirat, AT_FDCWD, path, 0755);
}

/* A file system in an image, by a loop device that goes when it is unmounted. */
static long mount_image(long image) {
  long control = call4(__NR_openat, AT_FDCWD, "/dev/loop-control", 02 | CLOEXEC, 0);
  long found = control;
  struct loop_config config;
  char path[40];
  for (int tries = 0; tries < 20 && found >= 0; tries++) {
    found = call2(__NR_ioctl, control, LOOP_CTL_GET_FREE);
    if (found < 0)
      break;
    put_number(put(path, "/dev/loop"), (u64)found);
    long device = call4(__NR_openat, AT_FDCWD, path, 02 | CLOEXEC, 0);
    memset(&config, 0, sizeof config);
    config.fd = (u32)image;
    config.info.lo_flags = LO_FLAGS_AUTOCLEAR;
    found = device < 0 ? device : call3(__NR_ioctl, device, LOOP_CONFIGURE, &config);
    if (found == 0) {
      found = mount(path, "b", "ext4", 0, "");
      call1(__NR_close, device);
      return found;
    }
    if (device >= 0)
      call1(__NR_close, device);
    found = found == -16 ? 0 : found;
  }
  return found < 0 ? found : -16;
}

/* `s` is where files stand, `n` the same on a file system mounted nosuid, `b` and `c` those two for
 * files from an image. Nobody outside sees any of it. */
int mount_all(struct text *text) {
  static const char *const places[] = {"/tmp", "/mnt", "/media", "/opt", "/srv", "/var"};
  long image = next(text), found = mount("", "/", "", RECURSIVE | MS_PRIVATE, 0);
  if (found < 0)
    return fails("mount(2) of /, MS_PRIVATE", found);
  found = -ENOENT_;
  for (size_t i = 0; i < sizeof places / sizeof *places && found < 0; i++)
    if ((found = mount("none", places[i], "tmpfs", 0, "mode=0755")) == 0)
      found = call1(__NR_chdir, places[i]);
  if (found < 0)
    return fails("mount(2) of a tmpfs", found);
  call1(__NR_umask, 0);
  folder("s"), folder("n"), folder("b"), folder("c");
  found = mount("none", "n", "tmpfs", MS_NOSUID, "mode=0755");
  if (found < 0)
    return fails("mount(2) of a tmpfs, MS_NOSUID", found);
  if (image >= 0) {
    found = mount_image(image);
    if (found == 0)
      found = mount("b", "c", "", MS_BIND, 0);
    if (found == 0)
      found = mount("", "c", "", MS_BIND | MS_REMOUNT | MS_NOSUID, 0);
    if (found < 0)
      return fails("mount(2) of an image by a loop device", found);
  }
  program_size = read_all("/proc/self/exe", program, PROGRAM);
  return 1;
}

static size_t from_hex(const char *hex, unsigned char *to) {
  size_t n = length(hex) / 2;
  for (size_t i = 0; i < 2 * n; i++) {
    int c = hex[i] | 32, digit = c > '9' ? c - 'a' + 10 : c & 15;
    to[i / 2] = (unsigned char)(i & 1 ? to[i / 2] << 4 | digit : digit);
  }
  return n;
}

static long write_file(const char *path, int executed) {
  long fd = call4(__NR_openat, AT_FDCWD, path, READ_WRITE_CREATE, 0600), done = 0;
  if (fd < 0)
    return fd;
  if (executed)
    done = call3(__NR_write, fd, program, program_size);
  call1(__NR_close, fd);
  return done < 0 ? done : 0;
}

/* PATH d|r OWNER GROUP MODE EXECUTED HEX: the owner is set first, since chown(2) clears what
 * follows. */
int make_file(struct text *text) {
  char path[64], kind[4], hex[140];
  unsigned char bytes[64];
  next_word(text, path, sizeof path);
  next_word(text, kind, sizeof kind);
  long owner = next(text), group = next(text), mode = next(text), executed = next(text);
  next_word(text, hex, sizeof hex);
  const char *call = *kind == 'd' ? "mkdir(2)" : "open(2)";
  long found = *kind == 'd' ? folder(path) : write_file(path, (int)executed);
  if (found == 0)
    call = "chown(2)", found = call5(__NR_fchownat, AT_FDCWD, path, owner, group, 0);
  if (found == 0)
    call = "chmod(2)", found = call3(__NR_fchmodat, AT_FDCWD, path, mode);
  if (found == 0 && *hex != '-') {
    call = "setxattr(2)";
    found = call5(__NR_setxattr, path, "security.capability", bytes, from_hex(hex, bytes), 0);
  }
  if (found < 0)
    put(world->text, call);
  return found < 0 ? fails(path, found) : 1;
}

static int failed_space(const char *what, long error, struct slot *born) {
  born->live = 0;
  return fails(what, error);
}

/* NUMBER PARENT ROOT OWN DENIED, and the map's triples: a user namespace and the task that keeps
 * it. Namespace 0 is one as well, where the machine allows it. */
int make_space(struct text *text) {
  static struct slot self;
  int number = (int)next(text), parent = (int)next(text);
  u32 root = (u32)next(text);
  int own = (int)next(text);
  long denied = next(text);
  char *to = world->map;
  for (int i = 1; !line_ends(text); i++)
    to = put(put_number(to, (u64)next(text)), i % 3 ? " " : "\n");
  struct slot *above = parent < 0 ? &self : slot_of(SPACE + parent);
  struct slot *born = new_slot(SPACE + number);
  if (!above || !born)
    return fails("a namespace that nobody keeps", -ENOENT_);
  born->process = SPACE + number;
  above->args[0] = born - world->slots;
  long found;
  if (above == &self && own) {
    found = make_namespace(&self);
  } else if (above == &self) {
    long pid = copy(17);
    if (pid == 0)
      live_at(born);
    born->pid = born->tid = (int)pid;
    found = pid;
  } else {
    found = ask_of(above, NAMESPACE);
  }
  if (found < 0)
    return failed_space("a user namespace", found, born);
  born->live = 1;
  born->root = root;
  born->args[0] = born->args[1] = root;
  born->args[2] = denied;
  found = ask_of(born, BECOME);
  return found < 0 ? failed_space("the root of a user namespace", found, born) : 1;
}

static struct first {
  long line, user, group, denied;
  struct slot *slot;
} firsts[MANY_INITS];
static int first_count;

/* LINE T P USER GROUP N DENIED. All first tasks are root's until the last one is made, so that a
 * process can be given its other threads. */
int first_task(struct text *text) {
  struct first *first = &firsts[first_count++ % MANY_INITS];
  first->line = next(text);
  int number = (int)next(text), process = (int)next(text);
  first->user = next(text), first->group = next(text);
  struct slot *keeper = slot_of(SPACE + (int)next(text)), *other = 0, *born;
  first->denied = next(text);
  first->slot = 0;
  for (int i = 0; i < TASKS && !other; i++)
    if (world->slots[i].live && world->slots[i].process == process)
      other = &world->slots[i];
  if (slot_of(number) || !keeper || !(born = new_slot(number)))
    return 1;
  born->process = process;
  born->root = keeper->root;
  struct slot *by = other ? other : keeper;
  by->args[0] = born - world->slots;
  long found = ask_of(by, other ? SPAWN : FORK);
  if (found < 0)
    return fails("a first task: clone(2)", found);
  born->live = 1;
  first->slot = born;
  return 1;
}

void first_tasks_become(void) {
  for (int i = 0; i < first_count && i < MANY_INITS; i++) {
    struct first *first = &firsts[i];
    say_number((u64)first->line);
    say(" ");
    if (!first->slot) {
      say(world->slots[TASKS - 1].live ? "too many\n" : "exists\n");
      continue;
    }
    first->slot->args[0] = first->user;
    first->slot->args[1] = first->group;
    first->slot->args[2] = first->denied;
    say_error(ask_of(first->slot, BECOME));
    say("\n");
  }
}
