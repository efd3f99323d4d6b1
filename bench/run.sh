#!/bin/sh
# Measures the proved program against a plain, unverified one (plain.rs). One row a script: how many
# entries its report has, the processor time of one run in the program and in the kernel (the least of
# 25) and the greatest resident memory of both programs; and, where valgrind is there, the instructions
# of both, which are the same at each run but for lanes, and their mark.
#
# - `run` on five scripts: four of 20,000 lines, and one of 2,000 calls that 64 threads make.
# - `audit` of the reports of three of these. The plain program has no audit.
# - `lanes` on a script of four lanes of 5,000 lines, beside `run` of the same script.
# - `run` and `audit` of 1.28 million entries, beside a program that only writes as many bytes and
#   digits (writes.rs).
#
# A mark is three in a hundred above what was reached last, so what is lost later is seen: where a
# script takes more, the status is 1. CREDTRACE=FILE measures another program than the proved one.
# It needs rustc, Python 3 and GNU time. No part of the checks.
set -eu
top=$(cd "$(dirname "$0")/.." && pwd)
dir=$(mktemp -d)
trap 'rm -rf "$dir"' EXIT

rustc --edition 2021 -C opt-level=3 -C codegen-units=1 -C panic=abort -o "$dir/plain" "$top/bench/plain.rs"
rustc --edition 2021 -C opt-level=3 -C codegen-units=1 -C panic=abort -o "$dir/writes" "$top/bench/writes.rs"
if [ -n "${CREDTRACE-}" ]; then
  ours=$CREDTRACE
else
  "$top/bin/credtrace" run < /dev/null
  ours=$top/crates/credtrace/out/credtrace
fi

lines() { # NAME LINE..: the script of 20,000 lines that has these in turn after its init line
  name=$1
  shift
  awk 'BEGIN {
    print "init t1 p1 0 0 n0"
    for (i = 0; i < 19999 - 19999 % (ARGC - 1); i++) print ARGV[i % (ARGC - 1) + 1]
  }' "$@" > "$dir/$name"
}
lines calls 't1 setresuid 0 0 0' 't1 ids' 't1 setreuid 0 0' 't1 caps'
lines changes 't1 keepcaps 1' 't1 setfsuid 1000' 't1 ambraise 0' 't1 capable 21'
lines holds 'take h1 t1' 'drop h1'
awk 'BEGIN {
  for (i = 1; i <= 256; i++) print "file f" i " reg " i " " i " 0640"
  print "init t1 p1 0 0 n0"
  for (i = 0; i < 19742; i++) print "t1 check f" i % 256 + 1 " r"
}' > "$dir/checks"
awk 'BEGIN {
  print "init t1 p1 0 0 n0"
  for (i = 2; i <= 64; i++) print "t1 spawn t" i
  for (i = 0; i < 2000; i++) print "t1 setresuid 0 0 0"
}' > "$dir/broadcast"
awk 'BEGIN {
  split("setresuid 0 0 0,ids,setreuid 0 0,caps", calls, ",")
  for (i = 1; i <= 4; i++) print "init t" i " p" i " 0 0 n0"
  for (i = 1; i <= 4; i++) {
    print "lane " i
    for (k = 0; k < 4997; k++) print "t" i " " calls[k % 4 + 1]
  }
}' > "$dir/lanes"
awk 'BEGIN {
  for (i = 1; i <= 64; i++) print "init t" i " p1 0 0 n0"
  for (i = 65; i <= 20000; i++) print "t1 setresuid 0 0 0"
}' > "$dir/threads"

audited() { # NAME: the input of audit that has the script NAME and the report of its run
  "$ours" run < "$dir/$1" > "$dir/report"
  { cat "$dir/$1"; echo report; cat "$dir/report"; } > "$dir/audit-$1"
}

# The tunables of glibc that bin/credtrace sets for this command, unless there are others.
tunables() { # COMMAND
  case $1 in
    audit) echo glibc.malloc.hugetlb=1:glibc.malloc.mmap_threshold=1073741824:glibc.malloc.top_pad=33554432 ;;
    lanes) echo glibc.malloc.hugetlb=1:glibc.malloc.arena_max=1:glibc.malloc.mmap_threshold=1073741824:glibc.malloc.top_pad=4194304 ;;
    *) echo ;;
  esac
}

seconds() { # PROGRAM COMMAND NAME: the least processor time, and the resident memory in KiB
  GLIBC_TUNABLES=${GLIBC_TUNABLES-$(tunables "$2")}
  export GLIBC_TUNABLES
  least=$(python3 "$top/bench/least.py" "$1" "$2" "$dir/$3")
  command time -o "$dir/time" -f %M "$1" "$2" < "$dir/$3" > /dev/null
  echo "$least $(cat "$dir/time")"
}

instructions() { # PROGRAM COMMAND NAME: none where valgrind isn't here
  command -v valgrind > /dev/null || return 0
  valgrind --tool=callgrind --callgrind-out-file=/dev/null "$1" "$2" < "$dir/$3" 2>&1 > /dev/null |
    sed -n 's/.*refs: *//p' | tr -d ,
}

row() {
  printf '%-15s %8s   %13s   %13s   %s\n' "$@"
}

status=0
# One row. Without another program there is nothing to compare with.
measure() { # COMMAND NAME MARK [PROGRAM COMMAND]
  entries=$("$ours" run < "$dir/${2#audit-}" | wc -l)
  a=$(instructions "$ours" "$1" "$2")
  theirs=- b=
  if [ "$#" -gt 3 ]; then
    theirs=$(seconds "$4" "$5" "${2#audit-}")
    b=$(instructions "$4" "$5" "${2#audit-}")
  fi
  count=$(awk -v a="${a:-0}" -v b="${b:-0}" -v mark="$3" 'BEGIN {
    if (a == 0) { print "valgrind is not here"; exit }
    printf "%.1f M, ", a / 1e6
    if (b > 0) printf "%.1f M, %.2f", b / 1e6, a / b; else printf "-, -"
    printf " (%s M)%s", mark, (a > mark * 1e6 ? ": above its mark" : "")
  }')
  case $count in *above*) status=1 ;; esac
  row "$1 ${2#audit-}" "$entries" "$(seconds "$ours" "$1" "$2")" "$theirs" "$count"
}

row script entries 'ours ms, KiB' 'theirs ms, KiB' 'instructions: ours, theirs, ratio (mark)'
for name in calls changes holds checks; do
  "$ours" run < "$dir/$name" > "$dir/report"
  "$dir/plain" run < "$dir/$name" | cmp - "$dir/report"
done
measure run calls 32.9 "$dir/plain" run
measure run changes 56.4 "$dir/plain" run
measure run holds 16.5 "$dir/plain" run
measure run checks 39.0 "$dir/plain" run
# The plain program has no threads.
measure run broadcast 84.3
for name in calls changes broadcast threads; do audited "$name"; done
measure audit audit-calls 61.7
measure audit audit-changes 152.7
measure audit audit-broadcast 221.0
measure lanes lanes 61.5 "$ours" run
measure run threads 824 "$dir/writes" run
measure audit audit-threads 2218 "$ours" run
exit "$status"
