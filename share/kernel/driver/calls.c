/* The calls of a script, in the task that each names, and who follows whom. */
#include "runner.h"

/* A call that not every thread of its process has made yet: its line, and its words. */
struct cast {
  int line, caller, process;
  long args[4];
  const char *groups;
};

static struct cast casts[TASKS];
static struct text *script;

static struct cast *cast_in(int process) {
  for (int i = 0; i < TASKS; i++)
    if (casts[i].line && casts[i].process == process)
      return &casts[i];
  return 0;
}

static struct cast *cast_of(int line) {
  for (int i = 0; i < TASKS; i++)
    if (casts[i].line == line)
      return &casts[i];
  return 0;
}

/* The call that this task began, and that keeps it busy. */
static struct cast *begun_by(const struct slot *slot) {
  struct cast *cast = cast_in(slot->process);
  return cast && cast->caller == slot->number ? cast : 0;
}

static int is_busy(const struct cast *cast) {
  if (!cast)
    return 0;
  say("busy ");
  say_number((u64)cast->line);
  return 1;
}

static int left(int line) {
  int n = 0;
  for (int i = 0; i < TASKS; i++)
    n += world->slots[i].live && world->slots[i].waits == line;
  return n;
}

static void settle(struct cast *cast) {
  if (cast && !left(cast->line))
    cast->line = 0;
}

/* The groups stand in the text; each step reads them there. */
static void load_groups(const char *from) {
  struct text groups = {from, script->end};
  world->count = 0;
  for (long n = next(&groups); n > 0 && world->count < GROUPS; n--)
    world->groups[world->count++] = (u32)next(&groups);
}

static long step(struct slot *slot, const struct cast *cast) {
  memcpy(slot->args, cast->args, sizeof cast->args);
  if (cast->args[0] == SETGROUPS)
    load_groups(cast->groups);
  return ask_of(slot, ID_CALL);
}

static void say_left(int line) {
  say("ok ");
  say_number((u64)left(line));
}

/* The caller's own step. The others wait for theirs then. */
static struct cast *begin_call(struct slot *slot, int line) {
  struct cast *cast = 0, new = {line, slot->number, slot->process, {0}, 0};
  new.args[0] = next(script);
  new.groups = script->at;
  for (int i = 1; i < 4 && new.args[0] != SETGROUPS; i++)
    new.args[i] = next(script);
  if (is_busy(cast_in(slot->process)))
    return 0;
  for (int i = 0; i < TASKS && !cast; i++)
    cast = casts[i].line ? 0 : &casts[i];
  long found = step(slot, &new);
  if (found < 0) {
    say_error(found);
    return 0;
  }
  *cast = new;
  for (int i = 0; i < TASKS; i++) {
    struct slot *other = &world->slots[i];
    if (other->live && other->process == slot->process && other != slot)
      other->waits = line;
  }
  say_left(line);
  return cast;
}

/* The step of the waiting thread of the least number. One that may not ends the process. */
static void follow(struct cast *cast) {
  struct slot *slot = 0;
  for (int i = 0; i < TASKS; i++) {
    struct slot *it = &world->slots[i];
    if (it->live && it->waits == cast->line && (!slot || it->number < slot->number))
      slot = it;
  }
  say_number((u64)slot->number);
  say(" ");
  long found = step(slot, cast);
  slot->waits = 0;
  if (found >= 0) {
    say_left(cast->line);
    settle(cast);
    return;
  }
  say_error(found);
  end_process(cast->process);
  cast->line = 0;
}

static void id_call(struct slot *slot, int line, int with_all) {
  struct cast *cast = begin_call(slot, line);
  if (cast && !left(line))
    cast->line = 0;
  while (with_all && cast && cast->line) {
    say(" / ");
    follow(cast);
  }
}

static void act(void) {
  struct cast *cast = cast_of((int)next(script));
  if (cast && cast->line)
    follow(cast);
  else
    say("no broadcast");
}

static int processes(int process) {
  int n = 0;
  for (int i = 0; i < SLOTS; i++)
    n += world->slots[i].live && world->slots[i].process == process;
  return n;
}

/* A thread, a child, or a label that holds: a child that keeps the credential. */
static void starts(struct slot *slot, enum op op) {
  int number = (int)next(script), process = op == FORK ? (int)next(script) : slot->process;
  int is_hold = number >= HOLD;
  if (!is_hold && is_busy(begun_by(slot)))
    return;
  if (slot_of(number)) {
    say("exists");
    return;
  }
  if (op == FORK && !is_hold && processes(process)) {
    say("exists process");
    return;
  }
  struct slot *born = new_slot(number);
  if (!born) {
    say("too many");
    return;
  }
  born->process = process;
  born->root = slot->root;
  slot->args[0] = born - world->slots;
  long found = ask_of(slot, op);
  if (found >= 0)
    born->live = 1, born->waits = op == SPAWN ? slot->waits : 0;
  say_error(found);
}

/* execve ends the other threads, and with them the call that they follow. */
static void executes(struct slot *slot) {
  next_word(script, world->path, sizeof world->path);
  if (is_busy(begun_by(slot)))
    return;
  int others = processes(slot->process) - 1;
  long found = ask_of(slot, EXECVE);
  if (found < 0) {
    say_error(found);
    return;
  }
  for (int i = 0; i < TASKS; i++)
    if (&world->slots[i] != slot && world->slots[i].process == slot->process)
      world->slots[i].live = 0;
  struct cast *cast = cast_in(slot->process);
  if (cast)
    cast->line = slot->waits = 0;
  say("ok ");
  say_number((u64)others);
  say(" ");
  say(world->text);
  if (world->threads != 1 || slot->tid != slot->pid)
    say(" disagree threads");
}

static void exits(struct slot *slot) {
  if (slot->number < HOLD && is_busy(begun_by(slot)))
    return;
  struct cast *cast = slot->waits ? cast_of(slot->waits) : 0;
  forget(slot);
  settle(cast);
  say("ok");
}

static void with_path(struct slot *slot, enum op op) {
  next_word(script, world->path, sizeof world->path);
  for (int i = 0; i < 3; i++)
    slot->args[i] = next(script);
  int is_access = op == ACCESS && slot->args[1] == 0;
  if (!is_access || !is_busy(begun_by(slot)))
    say_error(ask_of(slot, op));
}

/* A change of the task's own credential, or a question. */
static void plain(struct slot *slot, enum op op) {
  if (op != ASK && op != CLOSE && is_busy(begun_by(slot)))
    return;
  for (int i = 0; i < 4; i++)
    slot->args[i] = next(script);
  long found = ask_of(slot, op);
  if (op == FS_CALL && found >= 0) {
    say("ok was ");
    say_number((u64)found);
  } else {
    say_error(found);
    int has_text = found >= 0 && op == ASK && *world->text;
    say(has_text ? " " : "");
    say(has_text ? world->text : "");
  }
}

static void signals(struct slot *slot) {
  struct slot *other = slot_of((int)next(script));
  if (!other) {
    say("no other");
    return;
  }
  slot->args[0] = other->pid;
  slot->args[1] = other->tid;
  say_error(ask_of(slot, SIGNAL));
}

/* The operations beyond those of a task: see lines.py. */
enum { BEGIN = 100, ACT = 101 };

void call_line(struct text *text) {
  script = text;
  int line = (int)next(text), op = (int)next(text);
  say_number((u64)line);
  say(" ");
  if (op == ACT) {
    act();
    return;
  }
  struct slot *slot = slot_of((int)next(text));
  if (!slot) {
    say("no task");
    return;
  }
  switch (op) {
  case ID_CALL:
  case BEGIN: id_call(slot, line, op == ID_CALL); break;
  case EXECVE: executes(slot); break;
  case OPEN:
  case ACCESS: with_path(slot, (enum op)op); break;
  case SIGNAL: signals(slot); break;
  case SPAWN:
  case FORK: starts(slot, (enum op)op); break;
  case EXIT: exits(slot); break;
  default: plain(slot, (enum op)op);
  }
}
