// What the parts of the actor have in common.
#ifndef ACTOR_H
#define ACTOR_H

// How many programs and notes there are.
enum { FILES = 8 };

// The next random number below a limit.
unsigned pick(unsigned limit);

// So many steps.
void run(unsigned steps);

// Executes one of the programs, which goes on with so many steps.
void execute(unsigned steps);

// One of the steps that change where paths lead, namespaces, or files.
void rare_step(void);

#endif
