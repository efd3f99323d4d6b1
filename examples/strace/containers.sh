# Other roots, mounts, user namespaces and containers, of which examples/strace/record makes logs.
# It reads this file; alone it does nothing.
# shellcheck shell=sh disable=SC2154,SC2034 # its variables are those of record

# A root of its own, with a set-user-ID program of user 1001, which the host has as root's.
jail() {
  mkdir -p jail/usr/bin jail/bin
  for file in $(ldd /usr/bin/setpriv /bin/sh | grep -o '/lib[^ ]*' | sort -u); do
    mkdir -p "jail${file%/*}"
    cp "$file" "jail$file"
  done
  cp /bin/sh jail/bin
  cp /usr/bin/setpriv jail/usr/bin/setpriv
  chown 1001 jail/usr/bin/setpriv
  chmod 4755 jail/usr/bin/setpriv
}

chroot_() {
  jail
  echo "--folder $place" > "$here/chroot/words"
  trace=$places record chroot chroot --userspec=1000:1000 jail \
    /bin/sh -c 'cd /usr; ./bin/setpriv --dump; cd ..; exec usr/bin/setpriv --dump'
}

# Mounts of a mount namespace: a part of the file system again, nosuid, where the set-user-ID bit
# has no effect, and a tmpfs with a program of its own, which the host hasn't.
private_mount() {
  jail
  mkdir again own
  cat > "$here/private-mount/files" << LIST
/usr/bin/unshare reg 0 0 0755
/usr/bin/sh reg 0 0 0755
/usr/bin/mount reg 0 0 4755
/usr/bin/cp reg 0 0 0755
/usr/bin/setpriv reg 0 0 0755
$place/jail/usr/bin/setpriv reg 1001 0 4755
@OWN:/setpriv reg 0 0 0755
LIST
  listed=1 trace=$places record private-mount unshare --mount sh -c "
    mount --bind jail again
    mount -o remount,bind,nosuid again
    setpriv --reuid 1000 --clear-groups $place/again/usr/bin/setpriv --dump
    setpriv --reuid 1000 --clear-groups $place/jail/usr/bin/setpriv --dump
    mount -t tmpfs none own
    cp /usr/bin/setpriv own/setpriv
    own/setpriv --dump"
  line=$(grep -n '"tmpfs", 0' "$here/private-mount/log" | cut -d: -f1)
  sed -i "s/@OWN/@$line/" "$here/private-mount/files"
  echo "--folder $place" > "$here/private-mount/words"
}

# A sandbox of bubblewrap: a user namespace, pivot_root twice, binds, and no_new_privs.
bwrap_() {
  trace=$places record bwrap setpriv --reuid 1000 --regid 1000 --clear-groups \
    bwrap --unshare-user --unshare-pid --ro-bind /usr /usr --symlink usr/lib /lib \
    --symlink usr/lib64 /lib64 --proc /proc --tmpfs /tmp --uid 0 --gid 0 \
    --cap-add CAP_NET_RAW /usr/bin/setpriv --dump
}

# A container by runc, which executes itself by a descriptor: a Go program, one of whose threads
# changes its credential by raw system calls, while the others only wait for their end.
runc_() {
  jail
  mkdir -p bundle
  mv jail bundle/rootfs
  (cd bundle && runc spec)
  sed -i 's/"terminal": true/"terminal": false/
    s|"sh"|"/usr/bin/setpriv", "--dump"|' bundle/config.json
  trace=$places options='-s 256' record runc runc run -b bundle credtrace-test
}

# The same with a user namespace, whose maps runc writes, in a PID namespace: the program is of user
# 1000 there, 101000 outside, and has the group 5.
runc_mapped() {
  jail
  chown -R 100000:100000 jail
  mkdir -p bundle
  mv jail bundle/rootfs
  (cd bundle && runc spec)
  sed -i 's/"terminal": true/"terminal": false/
    s|"sh"|"/usr/bin/setpriv", "--dump"|
    s/"uid": 0,/"uid": 1000, "additionalGids": [5],/; s/"gid": 0/"gid": 1000/
    s/"namespaces": \[/"uidMappings": [{"containerID": 0, "hostID": 100000, "size": 65536}],\
      "gidMappings": [{"containerID": 0, "hostID": 100000, "size": 65536}],\
      "namespaces": [{"type": "user"},/' bundle/config.json
  trace=$places options='-s 256' record runc-mapped runc run -b bundle credtrace-mapped
}

# A user's namespace with the map of another program: newuidmap's way, by the parent.
# shellcheck disable=SC2016 # the recorded shell expands them
rootless() {
  cat > inside << 'INSIDE'
    unshare --user --keep-caps sh -c "sleep 1; setpriv --reuid 5 --regid 5 --clear-groups setpriv --dump" &
    sleep 0.5
    echo "0 100000 65536" > /proc/$!/gid_map
    echo "0 100000 65536" > /proc/$!/uid_map
    wait
INSIDE
  trace=$places record rootless sh inside
}

# User namespaces that are entered: by their descriptors, one within another, and a mount namespace.
# shellcheck disable=SC2016 # the recorded shell expands them
entered() {
  cat > inside << 'INSIDE'
    unshare -U sleep 2 & process=$!
    sleep 0.5
    echo "0 1000 1" > /proc/$process/uid_map
    echo "0 1000 1" > /proc/$process/gid_map
    nsenter -U -t $process id
    nsenter -U -t $process --preserve-credentials id
    nsenter -U -t $process --setuid 0 --setgid 0 unshare -Ur id
    kill $process
INSIDE
  trace=$places record entered sh inside
}

# Crun takes a machine alone that has cgroup2 and nothing else, so it is given a mount namespace of
# that kind.
only_cgroup2() {
  cat > only << 'ONLY'
umount -l /sys/fs/cgroup
mount -t cgroup2 none /sys/fs/cgroup
exec "$@"
ONLY
  inside='unshare --mount sh ./only'
}

# A container by crun, whose program is of user 1000, with the three capabilities of crun's own
# example.
crun_() {
  jail
  mkdir -p bundle
  mv jail bundle/rootfs
  (cd bundle && crun spec)
  sed -i 's/"terminal": true/"terminal": false/; s/"\([ug]id\)": 0/"\1": 1000/
    s|"sh"|"/usr/bin/setpriv", "--dump"|' bundle/config.json
  only_cgroup2
  echo "--folder $place" > "$here/crun/words"
  trace=$places,openat2 options='-s 256' record crun \
    crun --cgroup-manager=disabled run -b bundle credtrace-test
  inside=
}

# The same by a user, as Podman does it: crun makes a user namespace, has its maps written, and
# executes itself from a memfd.
crun_rootless() {
  mkdir -m 755 user run
  chown 1000 run
  jail
  mv jail user/rootfs
  chown -R 1000:1000 user
  (cd user && setpriv --reuid 1000 --regid 1000 --clear-groups crun spec --rootless)
  sed -i 's/"terminal": true/"terminal": false/
    s|"sh"|"/usr/bin/setpriv", "--dump"|' user/config.json
  only_cgroup2
  echo "--folder $place" > "$here/crun-rootless/words"
  trace=$places,openat2 options="-s 256 -E XDG_RUNTIME_DIR=$place/run" record crun-rootless \
    setpriv --reuid 1000 --regid 1000 --clear-groups \
    crun --cgroup-manager=disabled run -b user credtrace-test
  inside=
}
