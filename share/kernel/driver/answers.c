/* What a task says of its own credential. Each answer is asked of two sources where there are two:
 * the calls and /proc/thread-self/status, which must agree.
 */
#include "world.h"

#include <linux/capability.h>
#include <linux/fcntl.h>
#include <linux/prctl.h>
#include <linux/securebits.h>

enum { LAST = 40 };

/* What an answer says where its two sources differ. */
static long disagree(const char *what) {
  put(put(world->text, "disagree "), what);
  return -1000;
}

static void read_status(void) {
  long fd = call4(__NR_openat, AT_FDCWD, "/proc/thread-self/status", 0, 0), n, at = 0;
  while ((n = call3(__NR_read, fd, world->status + at, TEXT - 1 - at)) > 0)
    at += n;
  world->status[at] = 0;
  call1(__NR_close, fd);
}

/* What stands behind a name in the status. */
static const char *behind(const char *name) {
  size_t n = length(name);
  for (const char *at = world->status; *at;) {
    size_t i = 0;
    while (i < n && at[i] == name[i])
      i++;
    if (i == n)
      return at + n;
    while (*at && *at++ != '\n')
      ;
  }
  return "";
}

static u64 next_number(const char **at, unsigned base) {
  while (**at == ' ' || **at == '\t')
    (*at)++;
  u64 n = 0;
  for (;; (*at)++) {
    char c = **at;
    unsigned digit = c >= '0' && c <= '9' ? (unsigned)(c - '0')
                     : c >= 'a' && c <= 'f' ? (unsigned)(c - 'a' + 10) : 99;
    if (digit >= base)
      return n;
    n = n * base + digit;
  }
}

static long tell_ids(const struct slot *slot) {
  u32 ids[8], none = (u32)-1;
  call3(__NR_getresuid, &ids[0], &ids[1], &ids[2]);
  ids[3] = (u32)call1(__NR_setfsuid, none);
  call3(__NR_getresgid, &ids[4], &ids[5], &ids[6]);
  ids[7] = (u32)call1(__NR_setfsgid, none);
  read_status();
  const char *at[2] = {behind("Uid:"), behind("Gid:")};
  char *to = world->text;
  for (int i = 0; i < 8; i++) {
    if (next_number(&at[i / 4], 10) != ids[i])
      return disagree("ids");
    to = put_number(put(to, i ? " " : ""), inside(slot, ids[i]));
  }
  return 0;
}

static u64 whole(const u32 *halves, int step) {
  return halves[0] | (u64)halves[step] << 32;
}

static u64 by_prctl(long option, long what) {
  u64 found = 0;
  for (long i = 0; i <= LAST; i++) {
    long has = what < 0 ? call2(__NR_prctl, option, i) : call5(__NR_prctl, option, what, i, 0, 0);
    found |= (u64)(has == 1) << i;
  }
  return found;
}

/* Whether prctl(2), which tells a capability a call, tells this set too. It is asked of each set
 * once in a script, or every question would be a hundred calls. */
static int is_told(u64 set, long option, long what) {
  u64 key = set << 1 | (what < 0), *seen = &world->agreed[(key ^ key >> 17 ^ key >> 31) % 256];
  if (*seen == ~key)
    return 1;
  if (by_prctl(option, what) != set)
    return 0;
  *seen = ~key;
  return 1;
}

/* The permitted, the inheritable and the effective set. */
static void read_sets(u64 *sets) {
  struct __user_cap_header_struct head = {_LINUX_CAPABILITY_VERSION_3, 0};
  struct __user_cap_data_struct data[2];
  memset(data, 0, sizeof data);
  call2(__NR_capget, &head, data);
  sets[0] = whole(&data[0].permitted, 3);
  sets[1] = whole(&data[0].inheritable, 3);
  sets[2] = whole(&data[0].effective, 3);
}

static long tell_caps(void) {
  static const char *const names[] = {"CapPrm:", "CapInh:", "CapEff:", "CapBnd:", "CapAmb:"};
  u64 sets[3];
  read_sets(sets);
  read_status();
  char *to = world->text;
  for (int i = 0; i < 5; i++) {
    const char *at = behind(names[i]);
    u64 set = next_number(&at, 16);
    int good = i < 3   ? set == sets[i]
               : i < 4 ? is_told(set, PR_CAPBSET_READ, -1)
                       : is_told(set, PR_CAP_AMBIENT, PR_CAP_AMBIENT_IS_SET);
    if (!good)
      return disagree(names[i]);
    to = put_hex(put(to, i ? " " : ""), set);
  }
  return 0;
}

/* The groups that calls and the status tell, which is in the same order. */
static long tell_groups(const struct slot *slot) {
  static u32 zero;
  long count = call2(__NR_getgroups, 0, &zero);
  if (count < 0 || count > GROUPS)
    return count < 0 ? count : -EINVAL_;
  call2(__NR_getgroups, count, world->groups);
  read_status();
  const char *at = behind("Groups:");
  char *to = world->text;
  for (long i = 0; i < count; i++) {
    if (next_number(&at, 10) != world->groups[i])
      return disagree("groups");
    to = put_number(put(to, i ? " " : ""), inside(slot, world->groups[i]));
  }
  while (*at == ' ' || *at == '\t')
    at++;
  return *at == '\n' ? 0 : disagree("groups");
}

static long tell_bits(void) {
  long bits = call1(__NR_prctl, PR_GET_SECUREBITS);
  long keep = call1(__NR_prctl, PR_GET_KEEPCAPS);
  long none = call5(__NR_prctl, PR_GET_NO_NEW_PRIVS, 0, 0, 0, 0);
  read_status();
  const char *at = behind("NoNewPrivs:");
  if (keep != (bits >> SECURE_KEEP_CAPS & 1) || (long)next_number(&at, 10) != none)
    return disagree("bits");
  put_number(put(put_number(world->text, (u64)bits), " "), (u64)none);
  return 0;
}

/* What an execve's gain depends on: the permitted and the bounding set, no_new_privs and NOROOT. */
void tell_before(void) {
  u64 sets[3];
  read_sets(sets);
  read_status();
  const char *at = behind("CapBnd:");
  long bits = call1(__NR_prctl, PR_GET_SECUREBITS);
  char *to = put(put_hex(world->text, sets[0]), " ");
  to = put(put_hex(to, next_number(&at, 16)), " ");
  to = put(put_number(to, (u64)call5(__NR_prctl, PR_GET_NO_NEW_PRIVS, 0, 0, 0, 0)), " ");
  put_number(to, (u64)bits >> SECURE_NOROOT & 1);
}

/* And what shows it: the new permitted set, and the real and the effective user. */
void tell_after(const struct slot *slot) {
  u64 sets[3];
  u32 ids[3];
  read_sets(sets);
  call3(__NR_getresuid, &ids[0], &ids[1], &ids[2]);
  char *to = put_hex(put(world->text + length(world->text), " "), sets[0]);
  to = put_number(put(to, " "), inside(slot, ids[0]));
  put_number(put(to, " "), inside(slot, ids[1]));
}

/* One capability of the effective set: the kernel has no call that asks for it alone. */
static long tell_capable(u32 capability) {
  u64 sets[3];
  if (capability > LAST)
    return -EINVAL_;
  read_sets(sets);
  put_number(world->text, sets[2] >> capability & 1);
  return 0;
}

static long tell_flag(long found) {
  if (found < 0)
    return found;
  put_number(world->text, (u64)found);
  return 0;
}

long answer(struct slot *slot, enum query query, u32 capability) {
  switch (query) {
  case IDS: return tell_ids(slot);
  case CAPS: return tell_caps();
  case GROUP_LIST: return tell_groups(slot);
  case BITS: return tell_bits();
  case CAPABLE: return tell_capable(capability);
  case BSET: return tell_flag(call2(__NR_prctl, PR_CAPBSET_READ, capability));
  case AMBIS:
    return tell_flag(call5(__NR_prctl, PR_CAP_AMBIENT, PR_CAP_AMBIENT_IS_SET, capability, 0, 0));
  }
  return -EINVAL_;
}
