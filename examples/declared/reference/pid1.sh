#!/bin/sh
# Starts systemd as PID 1 of its own namespaces, over an overlay of this root that goes with them.
#     pid1.sh PLACE UNITS OUT      run by unshare --fork --pid --mount --uts --ipc --cgroup
# The log of systemd goes to OUT/kmsg, what units write to OUT.
set -e
place=$1/mnt units=$2 out=$3
mount --make-rprivate /
mkdir -p "$place"
mount -t tmpfs none "$place"
cd "$place"
mkdir upper work root
mount -t overlay overlay -o lowerdir=/,upperdir=upper,workdir=work root
mount -t proc proc root/proc
# Else PID 1 raises limits of the whole machine.
mount --bind root/proc/sys root/proc/sys
mount -o remount,bind,ro root/proc/sys
mount -t sysfs -o ro sysfs root/sys
mount -t cgroup2 cgroup2 root/sys/fs/cgroup
mount -t tmpfs -o mode=755 none root/dev
node() {
  mknod -m 666 "root/dev/$1" c "$2" "$3"
}
node null 1 3
node zero 1 5
node full 1 7
node random 1 8
node urandom 1 9
node tty 5 0
# PrivateDevices= asks for these.
mkdir root/dev/pts root/dev/shm root/dev/mqueue root/dev/hugepages
mount -t devpts -o newinstance,ptmxmode=0666 devpts root/dev/pts
ln -s pts/ptmx root/dev/ptmx
ln -s /proc/self/fd root/dev/fd
mount -t tmpfs -o mode=755 none root/run
mount -t tmpfs -o mode=1777 none root/tmp
mkdir -p root/run/systemd/system root/out root/units
mount --bind "$out" root/out
mount --bind "$units" root/units
# A file would be written over by each child: a pipe keeps all lines.
mkfifo root/dev/kmsg
cat root/dev/kmsg > root/out/kmsg &
exec 9> root/dev/kmsg
cd root
mkdir -p old
pivot_root . old
umount -l /old
echo uninitialized > /etc/machine-id
exec env -i PATH=/usr/sbin:/usr/bin container=trial SYSTEMD_UNIT_PATH=/units \
  SYSTEMD_LOG_RATELIMIT_KMSG=0 /lib/systemd/systemd --system --unit=trial.target \
  --log-target=kmsg --log-level=notice
