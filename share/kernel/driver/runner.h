/* The process that has the tasks of one script make their calls, one after another. */
#ifndef RUNNER_H
#define RUNNER_H

#include "world.h"

/* How a call ended, beside the kernel's errors: the task is gone without an answer. */
enum { LOST = -2000 };

/* The text of the script, as share/kernel/lines.py writes it: words, a call a line. */
struct text {
  const char *at, *end;
};

/* The next word of a line as a number; the letters of a word. */
long next(struct text *text);
const char *next_word(struct text *text, char *word, size_t size);
int line_ends(struct text *text);
void next_line(struct text *text);

/* Answers, which go to standard output. */
void say(const char *text);
void say_number(u64 number);
void say_error(long error);
void flush(void);

struct slot *slot_of(int number);
struct slot *new_slot(int number);
/* Has a task make a call, and waits for it. */
long ask_of(struct slot *slot, enum op op);
void forget(struct slot *slot);
void end_process(int process);

/* Tells what couldn't be made before the calls; always false. */
int fails(const char *what, long error);

/* What stands before the script's calls: mounts, files, namespaces and first tasks. Each answers a
 * line of its own, and is false where that failed. */
int make_file(struct text *text);
int mount_all(struct text *text);
int make_space(struct text *text);
int first_task(struct text *text);
void first_tasks_become(void);

/* A call of the script. */
void call_line(struct text *text);

#endif
