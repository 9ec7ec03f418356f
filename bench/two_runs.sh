#!/bin/sh
# Runs the program three times on one log. While the first run waits for the rest of its script, the second one prints `disk` and ends
# with status 6; once the first has ended, the third finds what it committed. It ends with status 1 where one of them does otherwise.
# The program is proved before it is built.
set -e
top=$(cd "$(dirname "$0")/.." && pwd)
work=$(mktemp -d)
trap 'rm -rf "$work"' EXIT
. "$top/bench/proved.sh"
proved fineline
fineline="$work/crates/fineline/out/fineline"

mkfifo "$work/script"
"$fineline" "$work/log" default run < "$work/script" > "$work/first" &
first=$!
exec 3> "$work/script"
printf 'txn 1\nput a 1\n' >&3
# the log is there once the first run has it
until [ -s "$work/log" ]; do sleep 0.1; done

status=0
printf 'txn 1\nput a 2\ncommit\n' | timeout 10 "$fineline" "$work/log" default run > "$work/second" || status=$?
if [ "$status" != 6 ] || [ "$(cat "$work/second")" != disk ]; then
  echo "the second run printed this, with status $status:"
  cat "$work/second"
  exit 1
fi

printf 'commit\n' >&3
exec 3>&-
wait "$first"
printf 'txn 1\nget a\ncommit\n' | "$fineline" "$work/log" default run > "$work/third"
grep -qx 'get a = 1' "$work/third" || { cat "$work/third"; exit 1; }
echo "the second run was refused at once, and what the first committed is there"
