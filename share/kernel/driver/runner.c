/* Runs a script: its lines one after another, each by the task that it names. */
#include "runner.h"

#include <linux/wait.h>

enum { SECONDS = 1, ROOM = 1 << 16, KILL = 9 };

static char out[ROOM];
static size_t filled;

void flush(void) {
  for (size_t done = 0; done < filled;) {
    long n = call3(__NR_write, 1, out + done, filled - done);
    if (n <= 0)
      leave(4);
    done += (size_t)n;
  }
  filled = 0;
}

void say(const char *text) {
  size_t n = length(text);
  if (n > ROOM - filled)
    flush();
  while (n > ROOM) {
    memcpy(out, text, filled = ROOM);
    flush();
    text += ROOM, n -= ROOM;
  }
  memcpy(out + filled, text, n);
  filled += n;
}

void say_number(u64 number) {
  char digits[24];
  put_number(digits, number);
  say(digits);
}

void say_error(long error) {
  switch (-error) {
  case 0: say("ok"); break;
  case EPERM_: say("eperm"); break;
  case EINVAL_: say("einval"); break;
  case EACCES_: say("eacces"); break;
  case EBADF_: say("ebadf"); break;
  case EEXIST_: say("exists"); break;
  case -LOST: say("lost"); break;
  case 1000: say(world->text); break;
  default: say("errno "); say_number((u64)-error);
  }
}

long next(struct text *text) {
  while (text->at < text->end && *text->at == ' ')
    text->at++;
  int negative = text->at < text->end && *text->at == '-';
  text->at += negative;
  long n = 0;
  while (text->at < text->end && *text->at >= '0' && *text->at <= '9')
    n = n * 10 + *text->at++ - '0';
  return negative ? -n : n;
}

const char *next_word(struct text *text, char *word, size_t size) {
  size_t n = 0;
  while (text->at < text->end && *text->at == ' ')
    text->at++;
  while (text->at < text->end && *text->at != ' ' && *text->at != '\n' && n + 1 < size)
    word[n++] = *text->at++;
  word[n] = 0;
  return word;
}

int line_ends(struct text *text) {
  while (text->at < text->end && *text->at == ' ')
    text->at++;
  return text->at == text->end || *text->at == '\n';
}

void next_line(struct text *text) {
  while (text->at < text->end && *text->at++ != '\n')
    ;
}

struct slot *slot_of(int number) {
  for (int i = 0; i < SLOTS; i++)
    if (world->slots[i].live && world->slots[i].number == number)
      return &world->slots[i];
  return 0;
}

struct slot *new_slot(int number) {
  int from = number >= SPACE ? TASKS : number >= HOLD ? TASKS + SPACES : 0;
  int to = number >= SPACE ? TASKS + SPACES : number >= HOLD ? SLOTS : TASKS;
  for (int i = from; i < to; i++)
    if (!world->slots[i].live) {
      memset(&world->slots[i], 0, sizeof(struct slot));
      world->slots[i].number = number;
      return &world->slots[i];
    }
  return 0;
}

/* Whether the process of a task has ended. */
static int is_gone(int pid) {
  return call4(__NR_wait4, pid, 0, WNOHANG, 0) == pid;
}

long ask_of(struct slot *slot, enum op op) {
  slot->op = op;
  give(&slot->turn, GO);
  while (!await(&slot->turn, DONE, SECONDS))
    if (is_gone(slot->pid)) {
      int pid = slot->pid;
      for (int i = 0; i < SLOTS; i++)
        if (world->slots[i].pid == pid)
          world->slots[i].live = 0;
      return LOST;
    }
  __atomic_store_n(&slot->turn, IDLE, __ATOMIC_RELEASE);
  return slot->result;
}

/* Whether this is a process's last slot. */
static int is_alone(const struct slot *slot) {
  for (int i = 0; i < SLOTS; i++)
    if (&world->slots[i] != slot && world->slots[i].live && world->slots[i].pid == slot->pid)
      return 0;
  return 1;
}

/* The task ends; with the last of its process, the process does. */
void forget(struct slot *slot) {
  int alone = is_alone(slot);
  ask_of(slot, EXIT);
  slot->live = 0;
  if (alone)
    call4(__NR_wait4, slot->pid, 0, 0, 0);
  else if (slot->gone)
    await(&slot->gone, 0, SECONDS);
}

void end_process(int process) {
  int pid = 0;
  for (int i = 0; i < SLOTS; i++)
    if (world->slots[i].live && world->slots[i].process == process) {
      pid = world->slots[i].pid;
      world->slots[i].live = 0;
    }
  if (pid > 0) {
    call2(__NR_kill, pid, KILL);
    call4(__NR_wait4, pid, 0, 0, 0);
  }
}
