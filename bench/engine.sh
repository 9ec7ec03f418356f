#!/bin/sh
# What transactions of one `put` each cost on a hall on a disk in memory: 400,000 of one pass on one thread, and as many in all of four passes on four threads,
# each in a bucket of its own, which all go on until the last of them is committed. They are of two kinds: short ones, which put one pair of a byte and a byte again and again, and long ones, which put keys of 12 bytes
# with values of 100 as bench/load.sh does, 400 of them in turn, as many as 100,000 keys have in each of 256 buckets. Of both
# kinds each transaction makes its call anew, and each commit is a turn of the room.
#
# Beside them a C program whose threads put as many pairs into a hash table under one mutex, and copy a record as long as a row into a
# buffer under it; and a bare lock whose threads change cache lines in each turn, each of which tells where the next one lies, and spend as much time of their own between as a
# short transaction takes on one thread. What the bare lock gains by four threads is about what can be had with so long a chain. The goal is at most 6 microseconds a transaction on one
# thread, and at least 2.5 times its commits a second with four threads, which wants four cores. Nothing is sealed, so no sync counts.
#
# What four processors give at most shows in four programs at once, each with a hall of its own and one thread: they share nothing. Four processors that are two cores of two
# threads each, or that others use as well, do not make four times the commits of one even so.
#
# Printed are, of both kinds, of the hall and of the C program, on one thread and on four, the commits a second and the processor microseconds a transaction; the commits a second of
# four threads to those of one, of four programs at once to those of one, and of four threads to those of four programs; how long the hall takes to the C program; then the turns of the
# bare lock; and how long a cache line takes from one processor to another.
#
# The atomic steps of a transaction are printed as its calls have them, which is counted by hand: a bucket and the room are each taken by a compare-exchange and a load and given back
# by a load and a store, and it looks once at its mailbox, once at the published number, and once at the room's word before it tries to take the room.
#
# All run nine times in turn, and of each number the median is printed; four threads are set against the one of the same turn, since a machine's speed changes from
# second to second by more than a turn takes. It is no test. The timing program is proved before it is built, since only a proved build is optimized.
set -e
top=$(cd "$(dirname "$0")/.." && pwd)
work=$(mktemp -d)
trap 'rm -rf "$work"' EXIT
speed="$work/crates/engine_speed"
# how many are committed in a run, whatever threads there are
count=400000
mkdir -p "$speed/src" "$speed/specs" "$speed/proofs"
. "$top/bench/proved.sh"
: > "$speed/specs/Lib.antt"
: > "$speed/proofs/Lib.antt"

cat > "$speed/src/main.rt" <<'EOT'
//! Times transactions of one put each, on one thread or on four.
#![tactic(auto)]

use log_disk::FaultPlan;
use std::alloc::Global;
use std::rt::Clock;
use std::sync::Wait;
use std::test::Fail;
use std::thread::Threads;
use std::time::Instant;
use hall_accounts::{Load, Workload, open, open_two, puts_at_once, puts_by_one};

/// The bytes of a region, in which all rows of a run have room.
const REGION: u64 = 67_108_864;

/// How many were committed by one thread, and in how many nanoseconds.
fn by_one<R: Wait + Clock>(rt: &R, alloc: Global, workload: Workload) -> Result<(u64, u128), Fail> {
    let opened = open_two(alloc, REGION, FaultPlan::none(alloc)).ok_or("memory")?;
    let start = Instant::now(rt)?;
    let counts = puts_by_one(rt, alloc, opened, workload).ok_or("memory")?;
    Ok((counts.place, start.elapsed(rt)?.as_nanos()))
}

/// How many were committed by four threads, and in how many nanoseconds.
fn by_four<R: Threads + Wait + Sync + Clock>(rt: &R, alloc: Global, workload: Workload) -> Result<(u64, u128), Fail> {
    let opened = open(alloc, 4, REGION, FaultPlan::none(alloc)).ok_or("memory")?;
    let start = Instant::now(rt)?;
    let counts = puts_at_once(rt, alloc, opened, workload).ok_or("memory")?;
    Ok((counts.place, start.elapsed(rt)?.as_nanos()))
}

fn main(rt: HostRuntime) -> Result<(), Fail> {
    let mut args = std::env::args(&rt)?;
    let _program = args.next();
    let threads = args.next().ok_or("one or four")?;
    let kind = args.next().ok_or("short or long")?;
    let times: u64 = args.next().ok_or("how many")?.as_str().parse().ok().ok_or("a number")?;
    let load = if kind.as_str() == "long" { Load::Long } else { Load::Short };
    let workload = Workload { times, load };
    let (committed, spent) = if threads.as_str() == "one" {
        by_one(&rt, rt.alloc(), workload)?
    } else {
        by_four(&rt, rt.alloc(), workload)?
    };
    println!(rt; "{committed} {spent}")?;
    Ok(())
}
EOT

cat > "$work/peer.c" <<'EOT'
#include <pthread.h>
#include <stdio.h>
#include <stdlib.h>
#include <string.h>
#include <time.h>

/* Words: one or four, short or long, how many in all. A record is as long as a row. */
enum { SLOTS = 4096, SHORT = 24, LONG = 134, MOST = 4 };

static pthread_mutex_t mutex = PTHREAD_MUTEX_INITIALIZER;
static unsigned char keys[SLOTS], values[SLOTS], used[SLOTS];
static char *records;
static long filled, times, length;

static void put(unsigned char key, unsigned char value) {
    unsigned slot = key * 2654435761u % SLOTS;
    while (used[slot] && keys[slot] != key) slot = (slot + 1) % SLOTS;
    used[slot] = 1;
    keys[slot] = key;
    values[slot] = value;
}

static void *work(void *arg) {
    char record[LONG];
    unsigned char key = (unsigned char)(size_t)arg;
    memset(record, key, LONG);
    for (int goes_on = 1; goes_on;) {
        pthread_mutex_lock(&mutex);
        goes_on = filled < times * length;
        if (goes_on) {
            put(key, 1);
            memcpy(records + filled, record, length);
            filled += length;
        }
        pthread_mutex_unlock(&mutex);
    }
    return NULL;
}

static long now(void) {
    struct timespec t;
    clock_gettime(CLOCK_MONOTONIC, &t);
    return t.tv_sec * 1000000000L + t.tv_nsec;
}

int main(int argc, char **argv) {
    pthread_t threads[MOST];
    if (argc < 4) return 1;
    int count = strcmp(argv[1], "one") ? MOST : 1;
    length = strcmp(argv[2], "long") ? SHORT : LONG;
    times = atol(argv[3]);
    records = malloc(times * length + 1);
    if (!records) return 1;
    long start = now();
    for (int i = 0; i < count; i++)
        if (pthread_create(&threads[i], NULL, work, (void *)(size_t)(i + 1))) return 1;
    for (int i = 0; i < count; i++) pthread_join(threads[i], NULL);
    long spent = now() - start;
    printf("%ld %ld\n", filled / length, spent);
    return 0;
}
EOT

cat > "$work/turns.c" <<'EOT'
#include <pthread.h>
#include <stdatomic.h>
#include <stdio.h>
#include <stdlib.h>
#include <time.h>
#include <immintrin.h>

/* Threads that take a bare lock, by a load and a compare-exchange, change so many cache lines, each of which tells where the next one lies, and give it back by
   a store; between they count for themselves. A commit is such a turn of the room: the room's slot tells where the room lies, and the room where its log ends.
   Words: threads, turns of each, counts between two turns, lines. With 0 threads, how many nanoseconds a line takes from one processor to another: two threads
   write one word in turn. */
enum { LINES = 4, MOST = 4, PASSES = 1000000 };
typedef struct line { _Alignas(128) struct line *volatile next; volatile long value; } line;
static struct { _Alignas(128) atomic_long word; } lock;
static line lines[LINES + 1];
static long times, own, chain;

static void *work(void *arg) {
    (void)arg;
    for (long i = 0; i < times; i++) {
        for (volatile long spent = 0; spent < own; spent++);
        for (int tries = 0;;) {
            long free = 0;
            if (atomic_load(&lock.word) == 0 && atomic_compare_exchange_strong(&lock.word, &free, 1)) break;
            for (int spin = 0; spin < 1 << (tries < 6 ? tries : 6); spin++) _mm_pause();
            tries++;
        }
        line *at = lines;
        for (long link = 0; link < chain; link++) {
            at->value++;
            at = at->next;
        }
        atomic_store(&lock.word, 0);
    }
    return NULL;
}

static void *pass(void *arg) {
    for (long i = (size_t)arg; i < PASSES; i += 2) {
        while (atomic_load(&lock.word) != i);
        atomic_store(&lock.word, i + 1);
    }
    return NULL;
}

static long now(void) {
    struct timespec t;
    clock_gettime(CLOCK_MONOTONIC, &t);
    return t.tv_sec * 1000000000L + t.tv_nsec;
}

int main(int argc, char **argv) {
    pthread_t threads[MOST];
    if (argc < 5) return 1;
    long count = atol(argv[1]), running = count ? count : 2;
    times = atol(argv[2]);
    own = atol(argv[3]);
    chain = atol(argv[4]);
    if (count > MOST || chain > LINES) return 1;
    for (long i = 0; i < LINES; i++) lines[i].next = &lines[i + 1];
    long start = now();
    for (long i = 0; i < running; i++)
        if (pthread_create(&threads[i], NULL, count ? work : pass, (void *)i)) return 1;
    for (long i = 0; i < running; i++) pthread_join(threads[i], NULL);
    long spent = now() - start;
    printf("%ld\n", count ? times * count * 1000000000L / spent : spent / PASSES);
    return 0;
}
EOT

cat > "$work/used.c" <<'EOT'
#include <stdio.h>
#include <sys/resource.h>
#include <sys/wait.h>
#include <unistd.h>

/* Runs a program, and prints behind what it prints the microseconds of the processors that it took. */
int main(int argc, char **argv) {
    int status;
    struct rusage u;
    if (argc < 2) return 1;
    pid_t child = vfork();
    if (child == 0) {
        execv(argv[1], argv + 1);
        _exit(127);
    }
    if (child < 0 || wait4(child, &status, 0, &u) != child || status) return 1;
    printf("%ld\n", (u.ru_utime.tv_sec + u.ru_stime.tv_sec) * 1000000L + u.ru_utime.tv_usec + u.ru_stime.tv_usec);
    return 0;
}
EOT

gcc -O2 -pthread -o "$work/peer" "$work/peer.c"
gcc -O2 -pthread -o "$work/turns" "$work/turns.c"
gcc -O2 -o "$work/used" "$work/used.c"
proved engine_speed "epoch_room log_disk txn_engine hall_accounts"
cd "$speed"
# for awk: the number in the middle of those of all lines
median='function median(numbers,    i, j, k) {
    for (i = 2; i <= NR; i++) for (j = i; j > 1 && numbers[j] < numbers[j - 1]; j--) { k = numbers[j]; numbers[j] = numbers[j - 1]; numbers[j - 1] = k }
    return numbers[int((NR + 1) / 2)]
  }'
timed() { "$work/used" "$@" | tr '\n' ' '; }
for kind in short long; do
  for turn in $(seq 1 9); do
    # a run without transactions shows what a hall costs, which is taken off
    for threads in one four; do
      timed out/engine_speed $threads $kind 0; timed out/engine_speed $threads $kind $count
      timed "$work/peer" $threads $kind 0; timed "$work/peer" $threads $kind $count
    done
    for program in 1 2 3 4; do out/engine_speed one $kind $count > "$work/alone_$program" & done
    wait
    cat "$work"/alone_* | tr '\n' ' '
    echo
  done > "$work/runs"
  awk -v count="$count" -v commits="$work/commits_$kind" -v kind=$kind "$median"'
  # each of four threads may commit one that began before the last was committed
  NF != 32 || $4 != count || $10 != count || $16 < count || $16 > count + 3 || $22 != count { failed = 1 }
  # the seconds, and the processor microseconds, of a transaction, from the field of a run without transactions on
  { for (at = 1; at <= 19; at += 6) { wall[at, NR] = ($(at + 4) - $(at + 1)) / $(at + 3) / 1000000000; cpu[at, NR] = ($(at + 5) - $(at + 2)) / $(at + 3) } }
  { apart = 0; for (at = 25; at <= 31; at += 2) { if ($at != count) failed = 1; apart += $at / ($(at + 1) - $2) * 1000000000 } }
  { more[NR] = wall[1, NR] / wall[13, NR]; more_in_c[NR] = wall[7, NR] / wall[19, NR]; to_c[NR] = wall[1, NR] / wall[7, NR]; to_c_of_four[NR] = wall[13, NR] / wall[19, NR] }
  { more_apart[NR] = wall[1, NR] * apart; to_apart[NR] = 1 / wall[13, NR] / apart }
  function median_at(numbers, at,    i, some) {
    for (i = 1; i <= NR; i++) some[i] = numbers[at, i]
    return median(some)
  }
  function line(name, at) {
    printf "  %s: %d commits a second, %.2f processor microseconds a transaction\n", name, 1 / median_at(wall, at), median_at(cpu, at)
  }
  END {
    if (failed || NR != 9) { print "a run failed"; exit 1 }
    print kind " transactions:"
    line("one thread", 1)
    line("four threads", 13)
    line("C, one thread", 7)
    line("C, four threads", 19)
    printf "  four threads to one: %.2f of its commits a second; C: %.2f; the goal is 2.5\n", median(more), median(more_in_c)
    printf "  four programs that share nothing to one: %.2f; the four threads of one hall to these: %.2f\n", median(more_apart), median(to_apart)
    printf "  to C on one thread: %.2f of its time; on four: %.2f\n", median(to_c), median(to_c_of_four)
    printf "%d\n", 1 / median_at(wall, 1) > commits
  }' "$work/runs"
done

echo "where nobody is in its way a transaction takes 2 compare-exchanges, 2 stores and 7 loads of words that other seats use, all sequentially consistent"
# turns THREADS OWN LINES: how many turns of the bare lock there are in a second
turns() { "$work/turns" "$1" $((count / $1)) "$2" "$3"; }
# one thread alone makes as many turns a second as one thread of the hall commits of short ones
own=300
for step in 1 2 3 4 5 6; do
  own=$(awk -v own="$own" -v made="$(turns 1 "$own" 1)" -v wanted="$(cat "$work/commits_short")" 'BEGIN { printf "%d", own * made / wanted }')
done
echo "C, a bare lock with as much between two turns, each of which changes so many lines that tell where the next one lies:"
for lines in 0 1 2 3 4; do
  for turn in $(seq 1 9); do echo "$(turns 1 "$own" $lines) $(turns 4 "$own" $lines)"; done | awk -v lines=$lines "$median"'
    { one[NR] = $1; four[NR] = $2; more[NR] = $2 / $1 }
    END { printf "  %d lines: %d turns a second on one thread, %d on four, %.2f to one\n", lines, median(one), median(four), median(more) }'
done
for turn in $(seq 1 9); do "$work/turns" 0 0 0 0; done | awk "$median"'
  { passing[NR] = $1 }
  END { printf "a cache line takes %d nanoseconds from one processor to another\n", median(passing) }'
