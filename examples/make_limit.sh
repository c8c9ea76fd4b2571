#!/bin/sh
# make_limit.sh NAME schedule    writes an input of `play` that passes the limit of this name.
# make_limit.sh NAME report      writes what `play` is to write of it; the status is 7.
usage() {
  echo 'usage: make_limit.sh events|log|input schedule|report' >&2
  exit 2
}

# line COUNT TEXT      writes the line so often
line() {
  awk -v count="$1" -v text="$2" 'BEGIN { for (n = 1; n <= count; n++) print text }'
}

case "$1 $2" in
  # A journal has at most 1000000 entries: a drain of 64 hosts leaves 257 of them.
  'events schedule')
    printf '%s\n' 'tablets 1' 'hosts 64' 'lanes 1' 'table 1 0 0:0' 'go'
    line 3892 'drain 0'
    ;;
  # A log has at most 10000 accepted commands, of which one comes of each step.
  'log schedule')
    printf '%s\n' 'tablets 1' 'hosts 1' 'lanes 1' 'table 1 0 0:0' 'go'
    line 10001 'step 0 resize 1 keep'
    ;;
  'log report')
    awk 'BEGIN { for (n = 1; n <= 10000; n++) printf "topo 0 accepted %d v%d\n", n, n + 1 }'
    echo 'limit log'
    ;;
  # At most 4194304 bytes are read: these are empty lines.
  'input schedule')
    head -c 4194305 /dev/zero | tr '\0' '\n'
    ;;
  'events report' | 'input report')
    echo "limit $1"
    ;;
  *)
    usage
    ;;
esac
