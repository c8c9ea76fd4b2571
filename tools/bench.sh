#!/bin/sh
# bench.sh PROGRAM [NAME..]      what plays cost: five inputs, made here, each played by `PROGRAM play`.
# Of each it tells how many entries the journal has, the user time in seconds, the most memory held in KiB and, where
# valgrind is there, the instructions for an entry. No part of the gate: times hang on the machine, instructions do not.
#
#   reads     reads of one key over 8 replicas
#   mixed     writes and reads over 40 tables of 8 tablets
#   single    4 MiB of single events with labels, writes of one key
#   commands  10000 accepted commands, each by a step over 8 hosts
#   move      a tablet of 20000 cells moves
usage() {
  echo 'usage: bench.sh PROGRAM [reads|mixed|single|commands|move ..]' >&2
  exit 2
}

# ---- the inputs: each is a schedule, and its last line the remark `# entries N`

# header HOSTS LANES [LINE..]
header() {
  printf 'tablets 1\nhosts %d\nlanes %d\n' "$1" "$2"
  shift 2
  [ $# -eq 0 ] || printf '%s\n' "$@"
  echo 'go'
}

# A read of 8 replicas asks 8 and takes 5 answers: a begin, 5 serves, 5 takes.
make_reads() {
  header 8 1 'table 1 0 0:0 1:0 2:0 3:0 4:0 5:0 6:0 7:0'
  awk -v count=9090 'BEGIN {
    for (n = 0; n < count; n++) printf "do %d.0 read 1 5\n", n % 8
    print "# entries " count * 11
  }'
}

# A request of 3 replicas takes 2 answers: a begin, 2 serves, 2 takes.
make_mixed() {
  awk -v count=20000 '
    function draw(bound) {
      state = (state * 69069 + 1) % 4294967296
      return int(state / 65536) % bound
    }
    BEGIN {
      state = 7
      printf "tablets 1\nhosts 8\nlanes 4\n"
      for (t = 1; t <= 40; t++) printf "table %d 3 %d:0 %d:0 %d:0\n", t, t % 8, (t + 3) % 8, (t + 5) % 8
      print "go"
      for (n = 1; n <= count; n++) {
        lane = draw(8) "." draw(4)
        table = draw(40) + 1
        key = (draw(2) ? "-" : "") (draw(921) + 1) sprintf("%04d", draw(10000)) "000000000000"
        if (draw(2)) printf "do %s write %d %s live:%d:%04x\n", lane, table, key, n, draw(65536)
        else printf "do %s read %d %s\n", lane, table, key
      }
      print "# entries " count * 5
    }'
}

# Five lines and five entries for a write of two answers, as many as 4194304 bytes hold with the last remark.
make_single() {
  awk -v most=4194200 'BEGIN {
    text = "tablets 1\nhosts 3\nlanes 4\ntable 1 0 0:0 1:0 2:0\ngo\n"
    size = length(text)
    printf "%s", text
    for (n = 1; ; n++) {
      lane = (n % 3) "." (int(n / 3) % 4)
      text = sprintf("w%d: begin %s write 1 5 live:%d:61\n", n, lane, n)
      for (host = 0; host < 2; host++) text = text sprintf("a%dr%d: serve %d w%d.%d\n", n, host, host, n, host)
      for (host = 0; host < 2; host++) text = text sprintf("take %s a%dr%d.0\n", lane, n, host)
      size += length(text)
      if (size > most) break
      printf "%s", text
    }
    print "# entries " (n - 1) * 5
  }'
}

# A step over 8 hosts: a look; a quiet, an ask, an answer and a hear for each; the proposal; an apply for each.
make_commands() {
  header 8 1 'table 1 0 0:0 1:0 2:0'
  awk -v count=10000 'BEGIN {
    for (n = 0; n < count; n++) print "step 0 " (n % 2 ? "join" : "leave") " 7"
    print "# entries " count * 42
  }'
}

# 20000 writes of five entries; 8 steps over 4 hosts; 313 pulls, serves and chunks; what the end of the pull and the
# cleanup are asked for, and that they are told.
make_move() {
  header 4 1 'table 1 0 0:0 1:0 2:0'
  awk -v count=20000 'BEGIN {
    for (n = 1; n <= count; n++) printf "do %d.0 write 1 %d live:%d:61\n", n % 3, n, n
    print "step 0 start 1 0 0:0 3:0"
    print "step 0 advance 1 write_both_read_old"
    print "step 0 advance 1 streaming"
    print "stream 0 1"
    print "step 0 advance 1 write_both_read_new"
    print "step 0 advance 1 use_new"
    print "step 0 advance 1 cleanup"
    print "tidy 0 1"
    print "step 0 advance 1 end_migration"
    print "step 0 advance 1 none"
    print "# entries " count * 5 + 8 * 22 + int((count + 63) / 64) * 3 + 6
  }'
}

# ---- measuring

[ $# -ge 1 ] || usage
program=$1
shift
[ -x "$program" ] || { echo "bench.sh: $program cannot be run" >&2; exit 2; }
timer=/usr/bin/time
[ -x "$timer" ] || { echo "bench.sh: $timer is needed" >&2; exit 2; }
[ $# -gt 0 ] || set -- reads mixed single commands move
work=$(mktemp -d) || exit 1
trap 'rm -rf "$work"' EXIT

# instructions FILE      how many instructions the program runs on it, or nothing without valgrind
instructions() {
  command -v valgrind >/dev/null || return 0
  valgrind --tool=cachegrind --cache-sim=no --cachegrind-out-file=/dev/null "$program" play <"$1" 2>&1 >/dev/null |
    awk '/ I *refs:/ { gsub(",", "", $NF); print $NF }'
}

failed=0
printf '%-9s %9s %8s %9s %13s\n' input entries 'user s' 'KiB' 'instr./entry'
for name; do
  case $name in
    reads | mixed | single | commands | move) "make_$name" >"$work/$name" ;;
    *) usage ;;
  esac
  entries=$(awk 'END { print $3 }' "$work/$name")
  "$timer" -f '%U %M' -o "$work/cost" "$program" play <"$work/$name" >"$work/report"
  status=$?
  if [ "$status" -ne 0 ]; then
    failed=1
    echo "$name: status $status: $(tail -n 1 "$work/report")"
    continue
  fi
  read -r user memory <"$work/cost"
  count=$(instructions "$work/$name")
  each=-
  [ -z "$count" ] || each=$(awk -v all="$count" -v entries="$entries" 'BEGIN { printf "%.0f", all / entries }')
  printf '%-9s %9d %8s %9d %13s\n' "$name" "$entries" "$user" "$memory" "$each"
done
exit "$failed"
