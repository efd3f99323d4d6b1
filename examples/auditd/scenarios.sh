# What is recorded for examples/auditd/: a function for each log. examples/auditd/record runs them, each in a
# mount namespace of its own, whose /etc is a copy with two users more: alice (3001, also of group 2000) and
# bob (1001).
# shellcheck shell=sh disable=SC2154 # `place`, `rules` and `programs` are those of record

# recorded WORD..: runs this while the rules are loaded, and notes its pid.
recorded() {
  auditctl -R "$rules" > /dev/null
  "$@" > "$place/output" 2>&1 &
  echo $! > "$place/first"
  wait $! || true
  auditctl -D > /dev/null
}

users() {
  cp -a /etc "$place/etc"
  mount --bind "$place/etc" /etc
  echo 'alice:x:3001:3001::/tmp:/bin/sh' >> /etc/passwd
  echo 'bob:x:1001:1001::/tmp:/bin/sh' >> /etc/passwd
  printf 'alice:x:3001:\nbob:x:1001:\nguests:x:2000:alice\n' >> /etc/group
  printf 'alice:*:19000::::::\nbob:*:19000::::::\n' >> /etc/shadow
}

built() {
  gcc -O1 -pthread -o "$1" "$programs/$1.c"
}

# Root becomes a user, who runs a script file and a program that only a group may execute.
su_() {
  printf '#!/bin/sh\nls / > /dev/null\nid\n' > script
  chmod 755 script
  cp /usr/bin/id members
  chgrp 2000 members
  chmod 750 members
  recorded su --shell /bin/sh alice -c 'id; ./script; ./members'
}

# A set-user-ID root program that becomes another user, and root.
sudo_() {
  echo 'alice ALL=(ALL) NOPASSWD: ALL' > /etc/sudoers.d/alice
  chmod 440 /etc/sudoers.d/alice
  recorded su --shell /bin/sh alice -c 'sudo -n -u bob id; sudo -n id'
}

# A file with a capability, which its program takes up and puts down.
ping_() {
  cp /usr/bin/ping ping
  chmod 755 ping
  setcap cap_net_raw=ep ping
  recorded su --shell /bin/sh alice -c './ping -c 1 127.0.0.1; ./ping -c 1 -W 1 127.0.0.2'
}

# Ambient and bounding sets; a file that needs what the bounding set lacks (EPERM), and one that only a
# group may execute.
setpriv_() {
  cp /usr/bin/ping ping
  setcap cap_net_raw=ep ping
  cp /usr/bin/id members
  chgrp 2000 members
  chmod 750 members
  cat > inside << 'INSIDE'
setpriv --reuid 3001 --regid 3001 --clear-groups --inh-caps +net_bind_service \
  --ambient-caps +net_bind_service sh -c 'setpriv --dump; ./ping -c 1 127.0.0.1; ./members'
setpriv --reuid 3001 --regid 3001 --clear-groups --bounding-set -net_raw sh -c './ping -c 1 127.0.0.1; id'
setpriv --reuid 3001 --regid 3001 --groups 2000 --no-new-privs sh -c './members; ./ping -c 1 127.0.0.1'
setpriv --securebits +noroot,+noroot_locked id
INSIDE
  recorded sh inside
}

capsh_() {
  recorded capsh --keep=1 --drop=cap_sys_admin --uid=3001 --caps=cap_setpcap,cap_net_raw=ep \
    --secbits=0x2f --print -- -c '/usr/sbin/capsh --print'
}

# Programs of another user, set-user-ID and set-group-ID, which change between their ids; one by a task
# with no_new_privs.
set_user_id_() {
  built swaps
  chown bob swaps
  chmod 4755 swaps
  cp swaps rooted
  chown root rooted
  chmod 4755 rooted
  cp swaps grouped
  chgrp 2000 grouped
  chmod 2755 grouped
  recorded su --shell /bin/sh bob -c './rooted; ./grouped; setpriv --no-new-privs ./rooted' 
}

# A service that leaves root in its workers, answers a request and ends.
nginx_() {
  cat > nginx.conf << CONF
user www-data; worker_processes 2; pid $place/nginx.pid; error_log $place/error.log;
events { }
http { access_log off; client_body_temp_path $place/b; proxy_temp_path $place/p; fastcgi_temp_path $place/f;
  uwsgi_temp_path $place/u; scgi_temp_path $place/s;
  server { listen 127.0.0.1:8079; location / { return 200 "here"; } } }
CONF
  cat > inside << INSIDE
nginx -c $place/nginx.conf
sleep 0.5
python3 -c 'import urllib.request; print(urllib.request.urlopen("http://127.0.0.1:8079/").read())'
kill -HUP \$(cat $place/nginx.pid)
sleep 0.5
kill -QUIT \$(cat $place/nginx.pid)
sleep 0.5
INSIDE
  recorded sh inside
}

# A user logs in over the network, runs a program and a set-user-ID one.
sshd_() {
  ssh-keygen -q -t ed25519 -N '' -f host
  ssh-keygen -q -t ed25519 -N '' -f key
  mkdir -p /run/sshd
  mkdir keys
  cp key.pub keys/alice
  chmod 644 keys/alice
  cat > sshd_config << CONF
Port 2279
ListenAddress 127.0.0.1
HostKey $place/host
AuthorizedKeysFile $place/keys/%u
StrictModes no
UsePAM yes
PidFile $place/sshd.pid
CONF
  cat > inside << INSIDE
/usr/sbin/sshd -f $place/sshd_config
sleep 0.3
ssh -i $place/key -p 2279 -o StrictHostKeyChecking=no -o UserKnownHostsFile=/dev/null -o BatchMode=yes alice@127.0.0.1 'id; passwd --status'
kill \$(cat $place/sshd.pid)
INSIDE
  recorded sh inside
}

# Jobs of two users, at the next minute.
cron_() {
  mkdir -p spool
  rm -f /etc/cron.d/*
  echo '* * * * * alice id > /dev/null' > /etc/cron.d/jobs
  echo '* * * * * root su --shell /bin/sh bob -c id > /dev/null' >> /etc/cron.d/jobs
  : > /etc/crontab
  cat > inside << INSIDE
cron -f &
sleep \$((63 - \$(date +%-S)))
kill \$!
wait
INSIDE
  recorded sh inside
}

# Files that change between their executions: owner, mode and attribute.
files_changed_() {
  cp /usr/bin/id one
  cp /usr/bin/setpriv two
  cat > inside << 'INSIDE'
user='setpriv --reuid 3001 --regid 3001 --clear-groups'
$user ./one
chmod 4755 one
$user ./one
chown bob one
$user ./one
chown bob one
chmod 6755 one
$user ./one
setcap cap_net_raw=ep two
$user ./two --dump
chown alice two
$user ./two --dump
$user chmod 700 one
setcap cap_net_bind_service=ei two
setpriv --reuid 3001 --regid 3001 --clear-groups --inh-caps +net_bind_service ./two --dump
setcap -r two
$user ./two --dump
INSIDE
  recorded sh inside
}

# Signals between users, and one that attaches to another's task.
signals_() {
  cat > inside << 'INSIDE'
sleep 4 & root=$!
setpriv --reuid 3001 --regid 3001 --clear-groups sh -c "
  sleep 4 & kill \$!; kill -TERM $root; strace -o /dev/null -p $root; strace -V > /dev/null"
setpriv --reuid 1001 --regid 1001 --clear-groups sleep 4 & other=$!
sleep 0.3
setpriv --reuid 3001 --regid 3001 --clear-groups kill $other
kill $other
kill $root
wait
INSIDE
  recorded sh inside
}

# Threads of a C program: ids by all of them, by one alone, and then by all, which one can't follow.
threads_() {
  built threads
  recorded ./threads
}

python_threads_() {
  recorded /usr/bin/python3 "$programs/threads.py"
}

# A user namespace of a user, who is root there: ids, capabilities, a set-user-ID program of the host's.
unshare_() {
  recorded su --shell /bin/sh alice -c 'unshare -r sh -c "id; setpriv --dump; setpriv --bounding-set -net_raw id
    setpriv --ambient-caps -all --inh-caps -all su --version"; id'
}

bwrap_() {
  recorded su --shell /bin/sh alice -c 'bwrap --unshare-user --unshare-pid --ro-bind / / --proc /proc --dev /dev \
    sh -c "id; setpriv --dump"; bwrap --unshare-user --ro-bind / / --uid 0 --gid 0 --cap-add CAP_NET_RAW setpriv --dump'
}

jail() {
  mkdir -p rootfs/usr/bin rootfs/bin
  for file in $(ldd /usr/bin/setpriv /bin/sh /usr/bin/id | grep -o '/lib[^ ]*' | sort -u); do
    mkdir -p "rootfs${file%/*}"
    cp "$file" "rootfs$file"
  done
  cp /bin/sh rootfs/bin
  cp /usr/bin/setpriv /usr/bin/id rootfs/usr/bin
  cp /usr/bin/id rootfs/usr/bin/setid
  chmod 4755 rootfs/usr/bin/setid
}

only_cgroup2() {
  umount -l /sys/fs/cgroup 2> /dev/null || true
  mount -t cgroup2 none /sys/fs/cgroup
}

# A container whose users are 100000 to 165535 outside; its program is of user 1000 there.
container_() {
  jail
  chown -R 100000:100000 rootfs
  chmod 4755 rootfs/usr/bin/setid
  runc spec
  # shellcheck disable=SC1004 # sed joins the lines
  sed -i 's/"terminal": true/"terminal": false/; s/"noNewPrivileges": true/"noNewPrivileges": false/
    s|"sh"|"/bin/sh", "-c", "id; setid; setpriv --dump"|
    s/"uid": 0,/"uid": 1000, "additionalGids": [5],/; s/"gid": 0/"gid": 1000/
    s/"namespaces": \[/"uidMappings": [{"containerID": 0, "hostID": 100000, "size": 65536}],\
      "gidMappings": [{"containerID": 0, "hostID": 100000, "size": 65536}],\
      "namespaces": [{"type": "user"},/' config.json
  recorded runc run -b . credtrace-auditd
}

# A container of a user without root, as Podman has it: newuidmap and newgidmap write its maps.
rootless_() {
  mkdir -m 755 user run
  chown 3001 run
  jail
  mv rootfs user/rootfs
  chown -R 3001:3001 user
  echo 'alice:100000:65536' >> /etc/subuid
  echo 'alice:100000:65536' >> /etc/subgid
  only_cgroup2
  (cd user && setpriv --reuid 3001 --regid 3001 --clear-groups crun spec --rootless)
  # shellcheck disable=SC1004 # sed joins the lines
  sed -i 's/"terminal": true/"terminal": false/; s/"noNewPrivileges": true/"noNewPrivileges": false/
    s|"sh"|"/bin/sh", "-c", "id; setpriv --reuid 5 --regid 5 --clear-groups id"|
    s/"containerID": 0,/"containerID": 0, /' user/config.json
  python3 - << 'PYTHON'
import json
with open("user/config.json") as file:
    config = json.load(file)
for kind in ("uid", "gid"):
    config["linux"][f"{kind}Mappings"] = [{"containerID": 0, "hostID": 3001, "size": 1},
                                          {"containerID": 1, "hostID": 100000, "size": 65536}]
for name in ("bounding", "effective", "permitted"):
    config["process"]["capabilities"][name] += ["CAP_SETUID", "CAP_SETGID"]
with open("user/config.json", "w") as file:
    json.dump(config, file)
PYTHON
  recorded setpriv --reuid 3001 --regid 3001 --clear-groups env XDG_RUNTIME_DIR="$place/run" \
    crun --cgroup-manager=disabled run -b user credtrace-auditd
}

# Set-user-ID programs and one with a capability where a mount has nosuid.
nosuid_() {
  mkdir there
  mount -t tmpfs -o nosuid none there
  cp /usr/bin/id there/id
  chmod 4755 there/id
  cp /usr/bin/ping there/ping
  chmod 755 there/ping
  setcap cap_net_raw=ep there/ping
  cp /usr/bin/id id
  chmod 4755 id
  recorded su --shell /bin/sh alice -c 'there/id; there/ping -c 1 127.0.0.1; ./id'
}

# A user's strace beside a set-user-ID program, whose bit has no effect then.
strace_() {
  cp /usr/bin/id id
  chmod 4755 id
  recorded su --shell /bin/sh alice -c 'strace -f -o /dev/null ./id; ./id'
}

# A seccomp filter answers EPERM for setuid(2) and its kin: the kernel makes no record of them.
filter_() {
  built filter
  recorded ./filter
}

# The same calls by the numbers of 32-bit programs.
calls_32_() {
  built calls32
  recorded ./calls32
}

# What /proc says of processes, for --start.
told() {
  for pid in "$@"; do
    mkdir -p "start/$pid/task/$pid" "start/$pid/ns"
    cp "/proc/$pid/status" "start/$pid/task/$pid/status"
    cp "/proc/$pid/uid_map" "/proc/$pid/gid_map" "start/$pid"
    readlink "/proc/$pid/ns/user" > "start/$pid/ns/user"
    readlink "/proc/$pid/exe" > "start/$pid/exe"
  done
}

# begun_before: `inside` runs before the rules are loaded, and goes on when the file `go` is there.
begun_before() {
  sh inside > "$place/output" 2>&1 &
  echo $! > first
  sleep 1
  # shellcheck disable=SC2046 # the pids are words
  told $(cat first) $(pgrep -P "$(cat first)")
  auditctl -R "$rules" > /dev/null
  touch go
  wait
  auditctl -D > /dev/null
}

# A service that runs when the rules are loaded, and what /proc says of it then.
begun_() {
  cat > inside << INSIDE
setpriv --reuid 3001 --regid 3001 --groups 2000 --inh-caps +net_bind_service,+setuid \\
  --ambient-caps +net_bind_service,+setuid sh -c '
    while [ ! -e go ]; do sleep 0.1; done; id
    setpriv --reuid 1001 id; setpriv --ambient-caps -setuid sh -c "id; setpriv --reuid 1001 id"'
INSIDE
  begun_before
}

# A process of a user namespace that is there when the rules are loaded, with its maps.
# shellcheck disable=SC2016 # the recorded shells expand them
begun_mapped_() {
  cat > inside << 'INSIDE'
unshare --user --keep-caps sh -c 'while [ ! -e go ]; do sleep 0.1; done
  setpriv --reuid 5 --regid 6 --clear-groups sh -c "id; setpriv --reuid 7 id"
  setpriv --reuid 5 --regid 6 --clear-groups --ambient-caps -all --inh-caps -all ./suid' &
sleep 0.3
echo "0 100000 65536" > /proc/$!/gid_map
echo "0 100000 65536" > /proc/$!/uid_map
wait
INSIDE
  cp /usr/bin/id suid
  chown 100000 suid
  chmod 4755 suid
  begun_before
}

# Set-user-ID programs that execute one another, beside each other, some hundred times.
many_() {
  built swaps
  chmod 4755 swaps
  cat > inside << 'INSIDE'
for number in 1 2 3 4 5 6; do
  su --shell /bin/sh alice -c 'for turn in 1 2 3; do ./swaps & done; wait' &
done
wait
INSIDE
  recorded sh inside
}
