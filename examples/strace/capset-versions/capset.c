// capset(2) by records of all versions: what the first leaves out, and bits above the last capability.
#define _GNU_SOURCE
#include <linux/capability.h>
#include <sys/prctl.h>
#include <sys/syscall.h>
#include <unistd.h>

static void set(unsigned version, int pid, unsigned permitted, unsigned upper, unsigned inheritable) {
  struct __user_cap_header_struct header = {version, pid};
  struct __user_cap_data_struct data[2] = {{permitted, permitted, inheritable}, {upper, upper, 0}};
  syscall(SYS_capset, &header, data);
  header.version = _LINUX_CAPABILITY_VERSION_3;
  syscall(SYS_capget, &header, data);
}

int main(void) {
  const unsigned setpcap = 1u << CAP_SETPCAP, raw = 1u << CAP_NET_RAW, bind = 1u << CAP_NET_BIND_SERVICE;
  const unsigned lower = ~(1u << CAP_SYS_RESOURCE);
  // More than is permitted.
  set(_LINUX_CAPABILITY_VERSION_3, 0, ~0u, ~0u, 0);
  // The second version's upper word has bits that are no capabilities.
  set(_LINUX_CAPABILITY_VERSION_2, getpid(), lower, 0xfffffe3fu, raw);
  set(_LINUX_CAPABILITY_VERSION_3, 0, lower, 1u << (CAP_BPF - 32), raw | bind);
  // The first version has no upper word: what it would say goes.
  set(_LINUX_CAPABILITY_VERSION_1, 0, setpcap | raw | bind, ~0u, raw);
  set(_LINUX_CAPABILITY_VERSION_3, getpid(), setpcap | raw, 1u << (CAP_BPF - 32), raw);
  prctl(PR_CAP_AMBIENT, PR_CAP_AMBIENT_RAISE, CAP_NET_RAW, 0, 0);
  set(_LINUX_CAPABILITY_VERSION_1, getpid(), bind, 0, bind);
  prctl(PR_CAP_AMBIENT, PR_CAP_AMBIENT_IS_SET, CAP_NET_RAW, 0, 0);
  // No version.
  set(0, 0, 0, 0, 0);
  set(_LINUX_CAPABILITY_VERSION_2, 0, 0, 1u << 31, 0);
  return 0;
}
