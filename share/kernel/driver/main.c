/* The program: it reads scripts from standard input, and runs each in namespaces of its own.
 *
 * A script comes as `script SECONDS LENGTH IMAGE`, and as many bytes of text and of an image of a
 * file system. What it is answered ends with a line `. done`, or with one that says how it ended.
 */
#include "runner.h"

#include <linux/fcntl.h>
#include <linux/memfd.h>
#include <linux/poll.h>
#include <linux/prctl.h>
#include <linux/sched.h>
#include <linux/time_types.h>

enum { SIGKILL_ = 9, SIGCHLD_ = 17, CLOSES_ON_EXEC = 02000000 };

/* Whether groups can't be set here. */
static int denied;

static long read_whole(char *to, long size) {
  for (long at = 0, n; at < size; at += n)
    if ((n = call3(__NR_read, 0, to + at, size - at)) <= 0)
      leave(0);
  return size;
}

static char *room(long size) {
  char *at = (char *)call6(__NR_mmap, 0, size + 1, 3, 0x22, -1, 0);
  if ((u64)at > (u64)-4096)
    leave(5);
  return at;
}

static long write_own(const char *path, const char *text) {
  long fd = call4(__NR_openat, AT_FDCWD, path, 1, 0);
  long done = fd < 0 ? fd : call3(__NR_write, fd, text, length(text));
  if (fd >= 0)
    call1(__NR_close, fd);
  return done;
}

static void map_own(const char *path, u32 id) {
  char line[40];
  put(put_number(put(line, "0 "), id), " 1\n");
  write_own(path, line);
}

/* Who isn't privileged enters a user namespace, where one user and one group are. */
static void enter(void) {
  u32 user = (u32)call0(__NR_geteuid), group = (u32)call0(__NR_getegid);
  if (call1(__NR_unshare, CLONE_NEWNS) == 0)
    return;
  long found = call1(__NR_unshare, CLONE_NEWUSER | CLONE_NEWNS);
  if (found < 0) {
    say("cannot unshare ");
    say_number((u64)-found);
    say("\n");
    flush();
    leave(2);
  }
  write_own("/proc/self/setgroups", "deny");
  map_own("/proc/self/uid_map", user);
  map_own("/proc/self/gid_map", group);
}

static void see_whether_denied(void) {
  char said[8] = {0};
  long fd = call4(__NR_openat, AT_FDCWD, "/proc/self/setgroups", 0, 0);
  call3(__NR_read, fd, said, 4);
  call1(__NR_close, fd);
  denied = same(said, "deny");
}

/* Ends before there is memory that the tasks share: a call that makes it was refused. */
static void leave_without(const char *call, long error) {
  static struct world empty;
  world = &empty;
  fails(call, error);
  flush();
  leave(1);
}

/* The memory that the tasks share. */
static void share(void) {
  long size = sizeof(struct world), fd = call2(__NR_memfd_create, "world", 0);
  if (fd < 0)
    leave_without("memfd_create(2)", fd);
  if (fd != WORLD_FD) {
    call3(__NR_dup3, fd, WORLD_FD, 0);
    call1(__NR_close, fd);
  }
  call2(__NR_ftruncate, WORLD_FD, size);
  world = (struct world *)call6(__NR_mmap, 0, size, 3, 1, WORLD_FD, 0);
  if ((u64)world > (u64)-4096)
    leave_without("mmap(2)", (long)world);
}

/* A line of the script: what stands before the calls has a letter, and ends the run if it fails. */
static int one_line(struct text *text) {
  char word[4] = {0};
  if (*text->at >= '0' && *text->at <= '9') {
    call_line(text);
    say("\n");
    return 1;
  }
  next_word(text, word, sizeof word);
  switch (*word) {
  case 'M': return mount_all(text);
  case 'F': return make_file(text);
  case 'N': return make_space(text);
  case 'I': return first_task(text);
  case 'G': first_tasks_become(); return 1;
  default: return 1;
  }
}

static void run(struct text text) {
  call2(__NR_prctl, PR_SET_PDEATHSIG, SIGKILL_);
  share();
  int good = 1;
  while (good && text.at < text.end) {
    good = one_line(&text);
    next_line(&text);
  }
  flush();
  leave(good ? 0 : 1);
}

static void put_image(const char *bytes, long size) {
  if (size) {
    long fd = call2(__NR_memfd_create, "image", 0);
    call3(__NR_dup3, fd, WORLD_FD + 1, CLOSES_ON_EXEC);
    call1(__NR_close, fd);
    for (long at = 0, n; at < size; at += n)
      if ((n = call3(__NR_write, WORLD_FD + 1, bytes + at, size - at)) <= 0)
        leave(5);
  }
}

/* Waits until nobody has the other end of the pipe any more, or for so many seconds. */
static int ended(long pipe, long seconds) {
  struct pollfd poll = {(int)pipe, POLLIN, 0};
  struct __kernel_timespec limit = {seconds, 0};
  return call5(__NR_ppoll, &poll, 1, &limit, 0, 8) > 0;
}

/* A process that is the first one of its pid namespace runs the script: with it all others end. */
static void script(long seconds, struct text text, const char *image, long size) {
  int pipe[2], status = 0;
  call2(__NR_pipe2, pipe, CLOSES_ON_EXEC);
  long pid = copy(CLONE_NEWPID | CLONE_NEWNS | SIGCHLD_);
  if (pid == 0) {
    call1(__NR_close, pipe[0]);
    put_image(image, size);
    run(text);
  }
  call1(__NR_close, pipe[1]);
  int in_time = pid > 0 && ended(pipe[0], seconds);
  if (pid > 0) {
    if (!in_time)
      call2(__NR_kill, pid, SIGKILL_);
    call4(__NR_wait4, pid, &status, 0, 0);
  }
  call1(__NR_close, pipe[0]);
  say(pid < 0 ? "\n. refused " : !in_time ? "\n. late " : status ? "\n. ended " : ". done ");
  say_number((u64)(pid < 0 ? -pid : status));
  say("\n");
  flush();
}

static void read_line(char *line, long size) {
  long n = 0;
  while (n + 1 < size) {
    read_whole(line + n, 1);
    if (line[n++] == '\n')
      break;
  }
  line[n] = 0;
}

static void serve(void) {
  char line[80], word[16];
  for (;;) {
    read_line(line, sizeof line);
    struct text head = {line, line + length(line)};
    if (!same(next_word(&head, word, sizeof word), "script"))
      leave(2);
    long seconds = next(&head), size = next(&head), of_image = next(&head);
    char *text = room(size + of_image);
    read_whole(text, size + of_image);
    script(seconds, (struct text){text, text + size}, text + size, of_image);
    call2(__NR_munmap, text, size + of_image + 1);
  }
}

/* A short text of /proc, each line behind its name. */
static void tell(const char *path) {
  static char text[8192];
  long fd = call4(__NR_openat, AT_FDCWD, path, 0, 0), n, at = 0;
  while ((n = call3(__NR_read, fd, text + at, (long)sizeof text - 1 - at)) > 0)
    at += n;
  call1(__NR_close, fd);
  text[at] = 0;
  say(path);
  say("\n");
  say(text);
}

/* From the first code, with the stack: the number of words, and the words. */
__attribute__((used)) void begin(long *stack) {
  char **words = (char **)(stack + 1);
  if (*stack == 4 && same(words[1], "task"))
    go_on(words[2], words[3]);
  call2(__NR_prctl, PR_SET_PDEATHSIG, SIGKILL_);
  enter();
  see_whether_denied();
  tell("/proc/version");
  tell("/proc/self/uid_map");
  tell("/proc/self/gid_map");
  say(". ready ");
  say_number((u64)denied);
  say("\n");
  flush();
  serve();
}
