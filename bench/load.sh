#!/bin/sh
# Prints what a load of 100,000 transactions costs, each with one `put` of a key of 12 bytes and a value of 100, in groups of 64 and of 1, beside a C
# program that writes and syncs as many epochs of as many bytes: transactions a second, processor microseconds a transaction (reading, running and
# printing apart), bytes written for each byte that is put and for each byte of epochs (the report is not counted), resident memory, and the ratio of times.
# Then the same load is begun once more in groups of one on the log that is left, and killed after a fifth of a second, which adds a few thousand transactions where it is on a disk, and the time to the first `get` behind that is taken, with as many
# transactions and with a tenth of them: of a transaction that is aborted, so that nothing is sealed for it, and of one that is committed. The bytes of epochs are those of the same rows in epochs that fill
# their regions, of which none is merged, and an index entry for each transaction.
#
# The same load on a file in memory, where no sync sleeps, shows what a transaction costs besides. On a disk the lines of a tree that a transaction walks over may have left the
# caches since they were last touched, as other processors and other machines on the same hardware use these too. What such a line takes is printed last, of a run of its own, and what it takes
# where the program waits as long and calls nothing.
#
# Microseconds are those between the calls of the system, by a library that is loaded before the program and reads the clock as each call begins and ends: so what
# the kernel does for a write or a sync is left out, and what it does for pages that are touched first is not. What the kernel counts to the program is printed too. Where it counts by its
# ticks, one that has to wait for the end of a call is counted to what comes behind it, so that with many calls it counts too much.
#
# Reading is what passes until the end of the script was read, the opening of the log included, and printing what passes behind the last sync. `sh bench/load.sh 10000` makes
# a smaller load. It is no test. The program is proved before it is built.
set -e
top=$(cd "$(dirname "$0")/.." && pwd)
count=${1:-100000}
work=$(mktemp -d)
memory=$(mktemp -d -p /dev/shm)
trap 'rm -rf "$work" "$memory"' EXIT
. "$top/bench/proved.sh"
proved fineline
fineline="$work/crates/fineline/out/fineline"

cat > "$work/timed.c" <<'EOF'
/* Runs a program on an input, with a library loaded before it that tells microseconds between calls, and prints: wall microseconds, those between calls, those of them until the input was
   read and those behind the last sync, those of the processor as the kernel counts them, resident kilobytes, bytes written by calls, status. Words: the library, the file that it tells
   by, input, output, the program and its words. */
#include <fcntl.h>
#include <stdio.h>
#include <stdlib.h>
#include <sys/resource.h>
#include <sys/wait.h>
#include <time.h>
#include <unistd.h>

static long now(void) {
    struct timespec t;
    clock_gettime(CLOCK_MONOTONIC, &t);
    return t.tv_sec * 1000000L + t.tv_nsec / 1000;
}

static long written(pid_t child) {
    char path[64], line[128];
    long bytes = 0;
    snprintf(path, sizeof path, "/proc/%d/io", (int)child);
    FILE *io = fopen(path, "r");
    while (io && fgets(line, sizeof line, io)) sscanf(line, "wchar: %ld", &bytes);
    if (io) fclose(io);
    return bytes;
}

int main(int argc, char **argv) {
    if (argc < 6) return 1;
    unlink(argv[2]);
    long start = now();
    pid_t child = fork();
    if (child == 0) {
        if (!freopen(argv[3], "r", stdin) || !freopen(argv[4], "w", stdout)) _exit(99);
        if (setenv("LD_PRELOAD", argv[1], 1) || setenv("BETWEEN", argv[2], 1)) _exit(99);
        execv(argv[5], argv + 5);
        _exit(99);
    }
    siginfo_t info;
    waitid(P_PID, child, &info, WEXITED | WNOWAIT);
    long spent = now() - start, bytes = written(child), between = -1, reading, printing;
    struct rusage use;
    int status;
    wait4(child, &status, 0, &use);
    FILE *told = fopen(argv[2], "r");
    if (!told || fscanf(told, "%ld %ld %ld", &between, &reading, &printing) != 3) return 1;
    long cpu = use.ru_utime.tv_sec * 1000000L + use.ru_utime.tv_usec;
    printf("%ld %ld %ld %ld %ld %ld %ld %d\n", spent, between, reading, printing, cpu, use.ru_maxrss, bytes, WEXITSTATUS(status));
    return 0;
}
EOF
gcc -O2 -o "$work/timed" "$work/timed.c"

cat > "$work/between.c" <<'EOF'
/* Sums what a program spends between its calls of the system that read, write and sync, and tells by the file that BETWEEN names the microseconds: all, those until its last read of the
   standard input, and those behind its last sync. */
#define _GNU_SOURCE
#include <dlfcn.h>
#include <stdio.h>
#include <stdlib.h>
#include <time.h>
#include <unistd.h>

static long last, between, read_by, synced_by;

static long now(void) {
    struct timespec t;
    clock_gettime(CLOCK_MONOTONIC, &t);
    return t.tv_sec * 1000000000L + t.tv_nsec;
}

#define CALL(answer, name, words, handed, then)                     \
    answer name words {                                             \
        static answer(*real) words;                                 \
        if (!real) real = (answer(*) words)dlsym(RTLD_NEXT, #name); \
        between += now() - last;                                    \
        answer result = real handed;                                \
        then;                                                       \
        last = now();                                               \
        return result;                                              \
    }
CALL(int, fdatasync, (int fd), (fd), synced_by = between)
CALL(int, fsync, (int fd), (fd), synced_by = between)
CALL(ssize_t, read, (int fd, void *bytes, size_t len), (fd, bytes, len), if (fd == 0) read_by = between)
CALL(ssize_t, write, (int fd, const void *bytes, size_t len), (fd, bytes, len), )
CALL(ssize_t, pread, (int fd, void *bytes, size_t len, off_t at), (fd, bytes, len, at), )
CALL(ssize_t, pread64, (int fd, void *bytes, size_t len, off64_t at), (fd, bytes, len, at), )
CALL(ssize_t, pwrite, (int fd, const void *bytes, size_t len, off_t at), (fd, bytes, len, at), )
CALL(ssize_t, pwrite64, (int fd, const void *bytes, size_t len, off64_t at), (fd, bytes, len, at), )

__attribute__((constructor)) static void begin(void) { last = now(); }

__attribute__((destructor)) static void end(void) {
    between += now() - last;
    FILE *told = fopen(getenv("BETWEEN"), "w");
    if (!told) return;
    fprintf(told, "%ld %ld %ld\n", between / 1000, read_by / 1000, (between - synced_by) / 1000);
    fclose(told);
}
EOF
gcc -O2 -fPIC -shared -o "$work/between.so" "$work/between.c" -ldl

cat > "$work/plain.c" <<'EOF'
/* Writes epochs of so many bytes: the body, a sync, the gate, a sync. */
#include <fcntl.h>
#include <stdlib.h>
#include <unistd.h>

int main(int argc, char **argv) {
    long epochs = atol(argv[2]), len = atol(argv[3]);
    char *bytes = calloc(1, len);
    int fd = open(argv[1], O_RDWR | O_CREAT, 0666);
    if (fd < 0 || !bytes) return 1;
    for (long e = 0; e < epochs; e++) {
        long at = (e % 24) * 4194304;
        if (pwrite(fd, bytes, len, at + 1) != len || fdatasync(fd)) return 1;
        if (pwrite(fd, bytes, 1, at) != 1 || fdatasync(fd)) return 1;
    }
    return 0;
}
EOF
gcc -O2 -o "$work/plain" "$work/plain.c"

cat > "$work/cold.c" <<'EOF'
/* Prints how many nanoseconds a cache line takes that was touched some 400 turns before: 16,384 lines, a mebibyte, of which each tells where the next one lies, are
   walked over, 40 in each of 4,000 turns. Before each turn a file is written and synced; with a third word the program only keeps its processor busy for as long as each of the first
   hundred syncs took, and calls nothing. */
#include <fcntl.h>
#include <stdio.h>
#include <stdlib.h>
#include <time.h>
#include <unistd.h>

enum { LINES = 16384, TURNS = 4000, STEPS = 40, FIRST = 100 };
static struct { _Alignas(64) volatile int next; } lines[LINES];
static int order[LINES];

static double now(void) {
    struct timespec t;
    clock_gettime(CLOCK_MONOTONIC, &t);
    return t.tv_sec * 1e9 + t.tv_nsec;
}

int main(int argc, char **argv) {
    char bytes[200] = {0};
    int fd = argc < 2 ? -1 : open(argv[1], O_RDWR | O_CREAT, 0666), at = 0;
    unsigned long chance = 88172645463325252UL;
    double spent = 0, pause = 0;
    if (fd < 0) return 1;
    for (int i = 0; i < LINES; i++) {
        chance ^= chance << 13, chance ^= chance >> 7, chance ^= chance << 17;
        int j = chance % (i + 1);
        order[i] = order[j], order[j] = i;
    }
    for (int i = 0; i < LINES; i++) lines[order[i]].next = order[(i + 1) % LINES];
    for (int i = 0; i < LINES; i++) at = lines[at].next;
    for (int turn = 0; turn < TURNS; turn++) {
        double begun = now();
        if (argc > 2 && turn >= FIRST) {
            while (now() - begun < pause / FIRST) {}
        } else {
            if (pwrite(fd, bytes, sizeof bytes, turn % FIRST * 4096L) != sizeof bytes || fdatasync(fd)) return 1;
            if (turn < FIRST) pause += now() - begun;
        }
        begun = now();
        for (int i = 0; i < STEPS; i++) at = lines[at].next;
        if (turn >= FIRST) spent += now() - begun;
    }
    printf("%.0f\n", spent / (TURNS - FIRST) / STEPS);
    return at < 0;
}
EOF
gcc -O2 -o "$work/cold" "$work/cold.c"

# script NAME COUNT: a script of so many transactions
script() {
  awk -v count="$2" 'BEGIN {
    value = sprintf("%100s", ""); gsub(/ /, "v", value)
    for (i = 0; i < count; i++) printf "txn 1\nput k%011d %s\ncommit\n", (i * 7919) % count, value
  }' > "$work/$1"
}
script load "$count"
script tenth $((count / 10))
printf 'txn 1\nget k00000000000\nabort\n' > "$work/get"
printf 'txn 1\nget k00000000000\ncommit\n' > "$work/one"

# timed INPUT OUTPUT PROGRAM WORDS
timed() { "$work/timed" "$work/between.so" "$work/told" "$@" > "$work/timing"; read -r wall between reading printing cpu resident bytes status < "$work/timing"; }
# loaded SCRIPT GROUP: a load of a new log, and the bytes that it wrote to it.
loaded() {
  rm -f "$work/log"
  timed "$work/$1" "$work/out" "$fineline" "$work/log" default run --group "$2"
  bytes=$((bytes - $(wc -c < "$work/out")))
}
# gets: the load once more in groups of one on the log that is left, killed after a fifth of a second, and then the milliseconds of a first get that is aborted, and of one that is committed. Nothing
# else is written meanwhile, for which the sync at the opening would wait.
gets() {
  "$fineline" "$work/log" default run --group 1 < "$work/load" > /dev/null &
  sleep 0.2
  kill -9 $! || exit 1
  ! wait $! 2> /dev/null || { echo "the load ended before it was killed"; exit 1; }
  sleep 1
  timed "$work/get" /dev/null "$fineline" "$work/log" default run
  aborted=$wall
  timed "$work/one" /dev/null "$fineline" "$work/log" default run
  echo "$(of $aborted 1000) ms, and $(of $wall 1000) with its commit"
}
of() { awk -v a="$1" -v b="$2" 'BEGIN { printf "%.2f", a / b }'; }

loaded load 100000
epoch_bytes=$((bytes + count * 14))
for group in 64 1; do
  epochs=$((count / group))
  loaded load $group
  run_wall=$wall run_between=$between run_reading=$reading run_printing=$printing run_cpu=$cpu run_resident=$resident run_bytes=$bytes run_status=$status
  # ahead of the C program, whose writes the sync at the opening would wait for
  first=$(gets)
  # a row has 19 + 1 + 12 + 2 + 100 bytes, and mostly a leaf of its own, so that an epoch has an index entry for each besides
  timed /dev/null /dev/null "$work/plain" "$work/plain_log" $epochs $((40 + group * (134 + 14)))
  echo "group $group, status $run_status: $(of $((count * 1000)) $((run_wall / 1000))) transactions a second, $(of $run_wall $wall) of the C program's time"
  running=$((run_between - run_reading - run_printing))
  echo "  processor microseconds a transaction: $(of $run_between $count) in all; reading $(of $run_reading $count), running $(of $running $count), printing $(of $run_printing $count); the kernel counts $(of $run_cpu $count)"
  timed "$work/load" /dev/null "$fineline" "$memory/log" default run --group $group
  echo "  processor microseconds a transaction on a file in memory: $(of $between $count); the kernel counts $(of $cpu $count)"
  rm "$memory/log"
  echo "  bytes written: $(of $run_bytes $((count * 112))) for each byte put, $(of $run_bytes $epoch_bytes) for each byte of epochs; resident memory $((run_resident / 1024)) MiB"
  echo "  a first get behind all of them and a kill: $first"
  loaded tenth $group
  echo "  behind a tenth of them and a kill: $(gets)"
done
echo "a cache line that was touched 400 syncs before: $("$work/cold" "$work/cold_file") nanoseconds on the disk, $("$work/cold" "$work/cold_file" busy) behind pauses as long, $("$work/cold" "$memory/cold_file") on a file in memory"
