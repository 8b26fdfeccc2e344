#!/bin/sh
# Pushes an export that says who works here today. For cron, or for a timer of systemd:
#
#     nightly-snapshot.sh EXPORT OPTION..
#
# It takes each option of `scimlink push --snapshot` but --users. It refuses an export that is a day old or older, or
# that has less than nine tenths of the bytes of the last one: then it pushes nothing, and its status is 1. The last one
# is EXPORT.pushed, a copy of the last export whose push ended with status 0. If it pushes, its status is that of the
# push.
set -eu
PATH=$PATH:/usr/local/bin
if [ $# -lt 2 ]; then
    echo "usage: nightly-snapshot.sh EXPORT OPTION.." >&2
    exit 2
fi
file=$1
shift
# it checks and pushes this copy, so that nobody changes the file in between
copy=$file.$$
trap 'rm -f "$copy"' EXIT
trap 'exit 1' HUP INT TERM

refuse() {
    echo "$file $1: nothing was pushed" >&2
    exit 1
}

cp -p "$file" "$copy"
if [ -n "$(find "$copy" -mtime +0)" ]; then
    refuse "is a day old or older"
fi
if [ -e "$file.pushed" ]; then
    size=$(($(wc -c < "$copy")))
    last=$(($(wc -c < "$file.pushed")))
    if [ $((10 * size)) -lt $((9 * last)) ]; then
        refuse "has $size bytes, and the last one had $last (if that is right, remove $file.pushed)"
    fi
fi
status=0
scimlink push --snapshot --users "$copy" "$@" || status=$?
if [ "$status" -eq 0 ]; then
    mv "$copy" "$file.pushed"
fi
exit "$status"
