/* The memory that all tasks of a script share with the process that has them make their calls.
 *
 * Each task waits at a slot of its own until a call stands there, makes it, and leaves the answer.
 * One task at a time does: the texts are shared.
 */
#ifndef WORLD_H
#define WORLD_H

#include "raw.h"

/* Tasks that live, user namespaces, and labels that hold: each is a thread, so has a slot. */
enum { TASKS = 64, SPACES = 16, HOLDS = 512, SLOTS = TASKS + SPACES + HOLDS };
/* Numbers of slots that aren't a script's tasks: `h1` is HOLD + 1, `n1` is SPACE + 1. */
enum { HOLD = 100000, SPACE = 300000 };
/* The descriptors of the shared memory, and of the first open file, f1. */
enum { WORLD_FD = 60, FILE_FD = 100 };
enum { GROUPS = 70000, TEXT = 1 << 20 };

/* Whose turn it is. */
enum { IDLE, GO, DONE };

/* What a task does. */
enum op {
  ID_CALL, FS_CALL, CAPSET, PRCTL, EXECVE, OPEN, CLOSE, ACCESS, SIGNAL, SPAWN, FORK, EXIT, ASK,
  BECOME, NAMESPACE
};

/* The calls that set ids, in the order of the first column of docs/FORMATS.md. */
enum id_call {
  SETUID, SETEUID, SETREUID, SETRESUID, SETGID, SETEGID, SETREGID, SETRESGID, SETGROUPS
};

enum query { IDS, CAPS, GROUP_LIST, BITS, CAPABLE, BSET, AMBIS };

struct slot {
  int turn;     /* a futex */
  int live;
  int number;   /* the T of a script */
  int process;  /* its P */
  int gone;     /* a futex, 0 when the thread is no more */
  int pid, tid; /* as the kernel has them */
  u32 root;     /* of its user namespace: what the script calls root there */
  int waits;    /* the line of the call that it still has to follow, or 0 */
  enum op op;
  long args[5];
  long result;
};

struct world {
  struct slot slots[SLOTS];
  int directory; /* of /proc, of a process whose maps are to be written */
  int threads;   /* what an executed program sees of its process */
  u32 count;
  u32 groups[GROUPS];
  u64 agreed[256]; /* sets that prctl(2) told as the status did */
  char path[300];
  char map[20000];
  char text[TEXT];   /* an answer of more than a number */
  char status[TEXT]; /* /proc/thread-self/status */
};

extern struct world *world;

/* Waits for a turn; false where it hasn't come within so many seconds. */
int await(int *turn, int wanted, int seconds);
void give(int *turn, int value);

/* The life of a task: it makes what stands at its slot, until it ends. */
void live_at(void *slot);
/* The program as it is executed by a task: it goes on at the slot. */
void go_on(const char *fd, const char *slot);
/* Answers a question into world->text. */
long answer(struct slot *slot, enum query query, u32 capability);
/* What an execve gained, of which one half is told before it and one after it. */
void tell_before(void);
void tell_after(const struct slot *slot);
/* An id as the namespace of a slot has it, and back: 0 there is the root id outside. */
u32 inside(const struct slot *slot, u32 id);
/* Makes a child in a user namespace of its own, whose keeper has the slot. */
long make_namespace(struct slot *keeper);

#endif
