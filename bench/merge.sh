#!/bin/sh
# Prints what merging two parts of 8 MiB costs, as a ratio to a C program beside it that reads and writes as many bytes in blocks of 64 KiB,
# with the same syncs: both parts are read twice, once to measure the merged rows and once to write them. Their nodes interleave, each with a
# row of 134 bytes. The goal is at most 3 of C in time. The first two lines are of a file on the disk, the others of one in memory, where a
# sync is nearly nothing. The memory of a merge is the peak of a run that makes the room of both parts and merges them, less that of a run
# that only makes the room; the goal is 256 KiB and 14 bytes a node. All run a few times in turn: of times the best counts, and of peaks, which
# the system tells to some hundred KiB only, the middle one. It is no test. The timing program is proved before it is built, since only a
# proved build is optimized.
set -e
top=$(cd "$(dirname "$0")/.." && pwd)
work=$(mktemp -d)
memory=$(mktemp -d -p /dev/shm)
trap 'rm -rf "$work" "$memory"' EXIT
speed="$work/crates/merge_speed"
mkdir -p "$speed/src" "$speed/specs"
. "$top/bench/proved.sh"
for function in rows_from no_parts both_parts room_of adopt merge; do mkdir -p "$speed/proofs/$function"; done
: > "$speed/specs/Lib.antt"
: > "$speed/proofs/Lib.antt"

cat > "$speed/src/main.rt" <<'EOT'
//! Fills a room on a disk in a file with two parts, or opens one, or merges its two parts.
#![tactic(auto)]

ghost use Rattle.std.specs.Prelude.{◌≡◌, ◌<◌, ◌≤◌, [], ◌∷◌, None, length, IfOk, OnOk};
ghost use Rattle.std.specs.List.{AllByRecursion};
ghost use Rattle.fine_model.specs.RowBytes.{FitsRow};
ghost use Rattle.fine_model.specs.declared.Mark.TheVariants as mark;
ghost use Rattle.log_disk.specs.Disk.{new_disk};
ghost use Rattle.epoch_room.specs.Whole.{AreParts};

use epoch_room::Room;
use fine_model::format::GREATEST;
use fine_model::{Bytes, Header, Items, Mark, NodeId, Part, Parts, Range, Rec, Row, Rows};
use log_disk::{FileDisk, LogDisk};
use partition_merge::is_ordered;
use room_merges::merge_now;
use std::alloc::{AllocError, Global};
use std::rt::Clock;
use std::test::Fail;
use std::time::Instant;

/// The rows of a part, each of another node. With 14 bytes for each node they take 8 MiB.
const ROWS: u32 = 56_679;

/// So many bytes.
fn bytes_of(alloc: Global, len: usize) -> Result<Bytes, AllocError>
    ensures { IfOk result (λ bytes. length bytes ≡ len) }
{
    Ok(Items::from_vec(vec![in alloc; 7u8; len]?))
}

/// A row of 134 bytes, which puts a value of 100 bytes into a node.
#[tactic(auto, unfolding(fine_model::specs::RowBytes::body))]
fn row_of(alloc: Global, number: u32) -> Result<Row, Fail>
    requires low { 1 ≤ number }
    requires high { number < 1000000 }
    ensures { IfOk result (FitsRow mark.Two) }
{
    let key = bytes_of(alloc, 12)?;
    let value = bytes_of(alloc, 100)?;
    Ok(Row {
        node: NodeId { bucket: 97, number },
        version: 1,
        rec: Rec::Put { key, value },
    })
}

/// The rows of every second node from a number on.
fn rows_from(alloc: Global, first: u32) -> Result<Rows, Fail>
    requires low { 1 ≤ first }
    requires high { first ≤ 2 }
    ensures { IfOk result (AllByRecursion (FitsRow mark.Two)) }
{
    let mut rows = Items::new(alloc);
    for i in 0..ROWS {
        let row = row_of(alloc, first + 2 * i)?;
        rows.push(row).ok().ok_or("memory")?;
    }
    Ok(rows)
}

/// The part of two regions that the first rows make.
const OLDER: Part = Part {
    region: 0,
    header: Header {
        mark: Mark::Three,
        range: Range { first: 1, last: 1 },
        rows: 56_679,
        nodes: 56_679,
        area: 7_594_986,
        regions: 2,
        more: [1, 0, 0, 0, 0, 0, 0],
    },
};

/// The part that the second rows make.
const NEWER: Part = Part {
    region: 2,
    header: Header {
        mark: Mark::Three,
        range: Range { first: 2, last: 2 },
        rows: 56_679,
        nodes: 56_679,
        area: 7_594_986,
        regions: 2,
        more: [3, 0, 0, 0, 0, 0, 0],
    },
};

/// No part.
fn no_parts(alloc: Global) -> Parts
    ensures { AreParts (new_disk 16 4194304 None) result [] }
{
    Items::new(alloc)
}

/// The two parts.
fn both_parts(alloc: Global) -> Result<Parts, Fail>
    ensures { IfOk result (λ parts. AreParts (new_disk 16 4194304 None) parts []) }
{
    let mut parts = Items::new(alloc);
    parts.push(OLDER).ok().ok_or("memory")?;
    parts.push(NEWER).ok().ok_or("memory")?;
    Ok(parts)
}

/// The room of these parts on a disk in a file.
fn room_of<D: LogDisk>(alloc: Global, disk: D, parts: Parts) -> Result<Room<D>, Fail>
    requires disk { D.state disk ≡ new_disk 16 4194304 None }
    requires parts { AreParts (new_disk 16 4194304 None) parts [] }
    ensures places { IfOk result (λ room. room.room.places ≡ 0) }
    ensures no_job { IfOk result (λ room. room.room.job ≡ None) }
    ensures board { IfOk result (λ room. room.room.board ≡ None ∷ None ∷ None ∷ []) }
{
    match Room::make(alloc, disk, parts, Items::new(alloc)) {
        Ok(room) => Ok(room),
        Err(_refused) => Err("memory".into()),
    }
}

/// Takes rows in as the next epoch.
fn adopt<D: LogDisk>(room: &mut Room<D>, rows: &Rows) -> Result<(), Fail>
    requires none { room.old.room.places ≡ 0 }
    requires no_job { room.old.room.job ≡ None }
    requires rows { AllByRecursion (FitsRow mark.Two) rows.now }
    ensures none { OnOk result (room.new.room.places ≡ 0) }
    ensures no_job { OnOk result (room.new.room.job ≡ None) }
{
    let sealed = room.counts().sealed;
    if sealed >= GREATEST {
        return Err("epoch".into());
    }
    if !is_ordered(rows.as_slice()) {
        return Err("order".into());
    }
    let range = Range {
        first: sealed + 1,
        last: sealed + 1,
    };
    match room.adopt(range, rows) {
        Ok(()) => Ok(()),
        Err(_fault) => Err("adopt".into()),
    }
}

/// Takes in two parts of nodes that interleave.
fn fill<D: LogDisk>(alloc: Global, room: &mut Room<D>) -> Result<(), Fail>
    requires none { room.old.room.places ≡ 0 }
    requires no_job { room.old.room.job ≡ None }
{
    adopt(room, &rows_from(alloc, 1)?)?;
    adopt(room, &rows_from(alloc, 2)?)?;
    if room.parts().as_slice() != [OLDER, NEWER].as_slice() {
        return Err("parts".into());
    }
    Ok(())
}

/// The nanoseconds that merging two parts takes.
fn merge<R: Clock, D: LogDisk>(rt: &R, alloc: Global, room: &mut Room<D>) -> Result<u128, Fail>
    requires no_job { room.old.room.job ≡ None }
    requires board { room.old.room.board ≡ None ∷ None ∷ None ∷ [] }
{
    let start = Instant::now(rt)?;
    let merged = merge_now(alloc, room);
    let spent = start.elapsed(rt)?.as_nanos();
    match merged {
        Ok(true) => Ok(spent),
        Ok(false) => Err("no merge".into()),
        Err(_fault) => Err("merge".into()),
    }
}

fn main(rt: HostRuntime) -> Result<(), Fail> {
    let mut args = std::env::args(&rt)?;
    let _program = args.next();
    let path = args.next().ok_or("a path")?;
    let word = args.next().ok_or("a word")?;
    let alloc = rt.alloc();
    let disk = FileDisk::make(&rt, alloc, path.as_str(), 16, 4_194_304)?;
    let parts = match word.as_str() {
        "fill" => no_parts(alloc),
        _ => both_parts(alloc)?,
    };
    let mut room = room_of(alloc, disk, parts)?;
    let spent = match word.as_str() {
        "fill" => {
            fill(alloc, &mut room)?;
            0
        }
        "merge" => merge(&rt, alloc, &mut room)?,
        _ => 0,
    };
    println!(rt; "{spent}")?;
    Ok(())
}
EOT

cat > "$speed/proofs/rows_from/Invariants.antt" <<'EOT'
use Rattle.std.specs.List.{AllByRecursion}
use Rattle.fine_model.specs.RowBytes.{FitsRow}
use Rattle.fine_model.specs.declared.Mark.TheVariants as mark
use Rattle.merge_speed.proofs.rows_from.Given as goal

abbrev pub invariant-loop-i : goal.invariant-loop-i
invariant-loop-i l = AllByRecursion (FitsRow mark.Two) l.rows
EOT

cat > "$speed/proofs/no_parts/Answers.antt" <<'EOT'
use Rattle.std.proofs.Common.{List, [], None, refl, sym, subst}
use Rattle.fine_model.specs.declared.Part.{Part}
use Rattle.fine_model.specs.Trees.{is_distinct}
use Rattle.log_disk.specs.Disk.{new_disk}
use Rattle.epoch_room.specs.Whole.{AreParts}
use Rattle.merge_speed.proofs.no_parts.Goals as goal

none : AreParts (new_disk 16 4194304 None) [] []
unfolding is_distinct
none = record { in_chain = record { follow = tt }; apart = record { distinct = refl; below = tt }; lie = tt; rising = tt; told = tt }

pub returns : goal.returns
returns c = subst (λ (ps : List Part). AreParts (new_disk 16 4194304 None) ps []) (sym c.new.ensures) none
EOT

cat > "$speed/proofs/both_parts/Answers.antt" <<'EOT'
use Rattle.std.proofs.Common.{◌≡◌, List, [], ◌∷◌, None, refl, sym, subst, rules, lit<, lit≤}
use Rattle.fine_model.specs.declared.Part.{Part}
use Rattle.fine_model.specs.Trees.{is_distinct}
use Rattle.log_disk.specs.Disk.{new_disk}
use Rattle.epoch_room.specs.Whole.{AreParts}
use Rattle.merge_speed.specs.declared.TheConstants.{OLDER, NEWER}
use Rattle.merge_speed.proofs.both_parts.Goals as goal

both : AreParts (new_disk 16 4194304 None) (OLDER ∷ NEWER ∷ []) []
unfolding is_distinct
both = record {
  in_chain = record { follow = (refl, lit≤ tt, lit≤ tt, (refl, lit≤ tt, lit≤ tt, tt)) };
  lie = (record { large = lit< tt; small = lit≤ tt; listed = refl; counted = refl; lies = refl }, (record { large = lit< tt; small = lit≤ tt; listed = refl; counted = refl; lies = refl }, tt));
  apart = record { distinct = refl; below = (lit< tt, (lit< tt, (lit< tt, (lit< tt, tt)))) };
  rising = tt;
  told = tt;
}

pub returns : goal.returns
returns c =
    let pushed : c.push-2.new.self ≡ OLDER ∷ NEWER ∷ [] = search rules in
    subst (λ (ps : List Part). AreParts (new_disk 16 4194304 None) ps []) (sym pushed) both
EOT

cat > "$speed/proofs/room_of/Answers.antt" <<'EOT'
use Rattle.std.proofs.Common.{List, [], None, refl, sym, subst, arith}
use Rattle.fine_model.specs.declared.Part.{Part}
use Rattle.log_disk.specs.Disk.{Disk, new_disk}
use Rattle.epoch_room.specs.Whole.{AreParts, IsIdle}
use Rattle.merge_speed.proofs.room_of.Goals as goal

idle : IsIdle (new_disk 16 4194304 None)
idle = record { geometry = record { regions_low = omega arith; regions_high = omega arith; len_low = omega arith; len_high = omega arith; whole = refl }; synced = refl; no_eyes = refl }

pub make-requires-clause-idle : goal.make-requires-clause-idle
make-requires-clause-idle g c = λ _ _. subst IsIdle (sym c.requires.disk) idle

pub make-requires-clause-parts : goal.make-requires-clause-parts
make-requires-clause-parts g c = λ _ _.
    subst (λ (ps : List Part). AreParts (g.D.LogDisk.state c.args.disk) c.args.parts ps) (sym c.new.ensures)
    (subst (λ (d : Disk). AreParts d c.args.parts []) (sym c.requires.disk) c.requires.parts)
EOT

cat > "$speed/proofs/adopt/Answers.antt" <<'EOT'
use Rattle.std.proofs.Common.{◌+◌, ap, ◌∙◌}
use Rattle.fine_model.specs.declared.law.RoomState.{RoomState}
use Rattle.epoch_room.specs.Adopting.{adopted_state}
use Rattle.epoch_room.specs.Fitting.{counts_of}
use Rattle.epoch_room.specs.declared.answers.Counts.{Counts}
use Rattle.merge_speed.proofs.adopt.Goals as goal

pub adopt-requires-clause-next : goal.adopt-requires-clause-next
unfolding counts_of
adopt-requires-clause-next g c κs within = ap (λ (counts : Counts). counts.sealed + 1) c.counts-sealed.ensures.counts

pub returns-in-Ok-clause-none : goal.returns-in-Ok-clause-none
unfolding adopted_state
returns-in-Ok-clause-none g c = ap (λ (room : RoomState). room.places) c.in-Ok.ensures.room.room ∙ c.requires.none

pub returns-in-Ok-clause-no_job : goal.returns-in-Ok-clause-no_job
unfolding adopted_state
returns-in-Ok-clause-no_job g c = ap (λ (room : RoomState). room.job) c.in-Ok.ensures.room.room ∙ c.requires.no_job
EOT

cat > "$speed/proofs/merge/Answers.antt" <<'EOT'
use Rattle.std.proofs.Common.{◌≡◌, true, refl, sym, subst}
use Rattle.std.specs.List.{list_all}
use Rattle.fine_model.specs.Boards.{is_empty}
use Rattle.merge_speed.proofs.merge.Goals as goal

pub merge_now-merged-requires-clause-board : goal.merge_now-merged-requires-clause-board
merge_now-merged-requires-clause-board g c = λ _ _. subst (λ b. list_all is_empty b ≡ true) (sym c.requires.board) refl
EOT

cat > "$work/calls.c" <<'EOF'
#include <fcntl.h>
#include <stdio.h>
#include <string.h>
#include <sys/resource.h>
#include <time.h>
#include <unistd.h>

enum { BLOCK = 65536, REGIONS = 16, REGION = 4194304, ROWS = 56679, ROW = 134, ENTRY = 14 };

static char block[BLOCK];

static long now(void) {
    struct timespec t;
    clock_gettime(CLOCK_MONOTONIC, &t);
    return t.tv_sec * 1000000000L + t.tv_nsec;
}

static long spent_cpu(void) {
    struct rusage u;
    getrusage(RUSAGE_SELF, &u);
    return (u.ru_utime.tv_sec + u.ru_stime.tv_sec) * 1000000000L + (u.ru_utime.tv_usec + u.ru_stime.tv_usec) * 1000L;
}

static int move_all(int fd, long at, long len, ssize_t (*move)(int, void *, size_t, off_t)) {
    for (long done = 0; done < len; done += BLOCK) {
        size_t count = len - done < BLOCK ? len - done : BLOCK;
        if (move(fd, block, count, at + done) != (ssize_t)count) return 1;
    }
    return 0;
}

static ssize_t put(int fd, void *bytes, size_t len, off_t at) { return pwrite(fd, bytes, len, at); }

static int write_and_sync(int fd, const char *bytes, size_t len, long at) {
    return pwrite(fd, bytes, len, at) != (ssize_t)len || fdatasync(fd);
}

int main(int argc, char **argv) {
    const long part = ROWS * (long)(ROW + ENTRY);
    int fd = open(argv[argc - 1], O_RDWR);
    if (fd < 0 || fdatasync(fd)) return 1;
    memset(block, 7, sizeof block);
    long start = now(), cpu = spent_cpu();
    for (int turn = 0; turn < 2; turn++)
        if (move_all(fd, 0, part, pread) || move_all(fd, 2L * REGION, part, pread)) return 1;
    if (move_all(fd, 4L * REGION, 2 * part, put)) return 1;
    if (write_and_sync(fd, block, 69, 4L * REGION + 1)) return 1;
    if (write_and_sync(fd, block, 1, 4L * REGION)) return 1;
    if (pwrite(fd, block, 1, 0) != 1 || write_and_sync(fd, block, 1, 2L * REGION)) return 1;
    printf("%ld %ld\n", now() - start, spent_cpu() - cpu);
    return 0;
}
EOF

cat > "$work/used.c" <<'EOF'
#include <stdio.h>
#include <sys/resource.h>
#include <sys/wait.h>
#include <unistd.h>

/* Runs a program, and prints behind what it prints the microseconds of the processors that it took and its peak of memory in KiB. */
int main(int argc, char **argv) {
    int status;
    struct rusage u;
    if (argc < 2) return 1;
    pid_t child = vfork();
    if (child == 0) {
        execv(argv[1], argv + 1);
        _exit(127);
    }
    if (child < 0 || wait4(child, &status, 0, &u) != child || status) return 1;
    printf("%ld %ld\n", (u.ru_utime.tv_sec + u.ru_stime.tv_sec) * 1000000L + u.ru_utime.tv_usec + u.ru_stime.tv_usec, u.ru_maxrss);
    return 0;
}
EOF

gcc -O2 -o "$work/calls" "$work/calls.c"
gcc -O2 -static -o "$work/used" "$work/used.c"
proved merge_speed "fine_model log_disk partition_merge epoch_room room_merges"
cd "$speed"
out/merge_speed "$work/filled.log" fill > /dev/null
for place in "$work" "$memory"; do
  for turn in $(seq 1 13); do
    cp "$work/filled.log" "$place/c.log"
    cp "$work/filled.log" "$place/room.log"
    c=$("$work/calls" "$place/c.log")
    merged=$("$work/used" out/merge_speed "$place/room.log" merge)
    opened=$("$work/used" out/merge_speed "$work/filled.log" open)
    echo $c $merged $opened
  done | awk -v place="$([ "$place" = "$work" ] && echo disk || echo memory)" '
    function middle(values, count,    i, j, value) {
      for (i = 2; i <= count; i++) {
        value = values[i]
        for (j = i - 1; j >= 1 && values[j] > value; j--) values[j + 1] = values[j]
        values[j + 1] = value
      }
      return values[int((count + 1) / 2)]
    }
    NF != 8 { failed = 1 }
    { for (i = 1; i <= 8; i++) if (NR == 1 || $i < best[i]) best[i] = $i }
    { merged[NR] = $5; opened[NR] = $8 }
    END {
      if (failed) { print "a run failed"; exit 1 }
      cpu = best[4] - best[7]
      printf "a file in the %s: C %.1f milliseconds, the merge %.1f: %.2f of C; ", place, best[1] / 1000000, best[3] / 1000000, best[3] / best[1]
      printf "of a processor %.1f and %.1f: %.2f of C\n", best[2] / 1000000, cpu / 1000, 1000 * cpu / best[2]
      peak = middle(merged, NR) - middle(opened, NR)
      nodes = 2 * 56679
      printf "  the memory of a merge: %d KiB, which is 256 KiB and %.2f bytes a node; the goal is 256 KiB and 14\n", peak, (peak - 256) * 1024 / nodes
    }'
done
