#!/bin/sh
# make_schedule.sh N      writes a schedule of N writes, each at a token of its own, over all lanes of three hosts.
# Each request is served by its three replicas and taken to its end before the next one begins.
case ${1:-} in
  '' | *[!0-9]*) echo 'usage: make_schedule.sh N' >&2; exit 2 ;;
esac
awk -v requests="$1" 'BEGIN {
  hosts = 3
  lanes = 4
  print "tablets 1"
  print "hosts " hosts
  print "lanes " lanes
  print "table 1 0 0:0 1:0 2:0"
  print "go"
  for (request = 1; request <= requests; request++) {
    lane = (request % hosts) "." (int(request / hosts) % lanes)
    printf "w%d: begin %s write 1 %d live:%d:61\n", request, lane, request, request
    for (host = 0; host < hosts; host++)
      printf "a%dr%d: serve %d w%d.%d\n", request, host, host, request, host
    for (host = 0; host < hosts; host++)
      printf "take %s a%dr%d.0\n", lane, request, host
  }
}'
