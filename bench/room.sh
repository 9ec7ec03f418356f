#!/bin/sh
# Prints what sealing an epoch costs, as a ratio to the same two writes and two syncs made by a C program beside it: epochs of 64
# entries, each a row with a value of 100 bytes, in 16 leaves. The first line is of a file on the disk, where the syncs take most of
# the time; the second is of one in memory, where a sync is nearly nothing: there the difference is what the room itself computes.
# Both run a few times in turn, and the best of each counts. It is no test. The timing program is proved before it is built, since
# only a proved build is optimized.
set -e
top=$(cd "$(dirname "$0")/.." && pwd)
work=$(mktemp -d)
memory=$(mktemp -d -p /dev/shm)
trap 'rm -rf "$work" "$memory"' EXIT
speed="$work/crates/room_speed"
mkdir -p "$speed/src" "$speed/specs"
. "$top/bench/proved.sh"
mkdir -p "$speed/proofs/new_room" "$speed/proofs/seal"
: > "$speed/specs/Lib.antt"
: > "$speed/proofs/Lib.antt"

cat > "$speed/src/main.rt" <<'EOT'
//! Times the seals of a room on a disk in a file.
#![tactic(auto)]

ghost use Rattle.std.specs.Prelude.{◌≡◌, ◌<◌, None, length, IfOk};
ghost use Rattle.std.specs.List.{AllByRecursion};
ghost use Rattle.fine_model.specs.RowBytes.{FitsRow};
ghost use Rattle.fine_model.specs.declared.Mark.TheVariants as mark;
ghost use Rattle.log_disk.specs.Disk.{new_disk};

use epoch_room::{Fit, Room};
use fine_model::{Bytes, Items, NodeId, Rec, Row};
use log_disk::{FileDisk, LogDisk};
use private_log::PrivateLog;
use std::alloc::{AllocError, Global};
use std::rt::Clock;
use std::test::Fail;
use std::time::Instant;

/// So many bytes.
fn bytes_of(alloc: Global, len: usize) -> Result<Bytes, AllocError>
    ensures { IfOk result (λ bytes. length bytes ≡ len) }
{
    Ok(Items::from_vec(vec![in alloc; 7u8; len]?))
}

/// A transaction that puts a value of 100 bytes into one of 16 leaves.
#[tactic(auto, unfolding(fine_model::specs::RowBytes::body))]
fn entry(alloc: Global, n: u32) -> Result<PrivateLog, Fail>
    requires { n < 64 }
    ensures { IfOk result (AllByRecursion (FitsRow mark.Two)) }
{
    let key = bytes_of(alloc, 12)?;
    let value = bytes_of(alloc, 100)?;
    let mut log = PrivateLog::new(alloc);
    let row = Row {
        node: NodeId {
            bucket: 97,
            number: 16 - n % 16,
        },
        version: 1 + u64::from(n / 16),
        rec: Rec::Put { key, value },
    };
    log.push(&row).ok().ok_or("memory")?;
    Ok(log)
}

fn new_room<D: LogDisk>(alloc: Global, disk: D) -> Result<Room<D>, Fail>
    requires { D.state disk ≡ new_disk 64 65536 None }
{
    match Room::make(alloc, disk, Items::new(alloc), Items::new(alloc)) {
        Ok(room) => Ok(room),
        Err(_refused) => Err("memory".into()),
    }
}

fn commit<D: LogDisk>(room: &mut Room<D>, log: &PrivateLog) -> Result<(), Fail>
    requires { AllByRecursion (FitsRow mark.Two) log.now }
{
    match room.fit(log.cost()) {
        Fit::Fits => {
            let _stamp = room.append(log);
            Ok(())
        }
        _ => Err("fit".into()),
    }
}

/// The nanoseconds that a seal takes.
fn seal<R: Clock, D: LogDisk>(rt: &R, room: &mut Room<D>) -> Result<u128, Fail> {
    if room.counts().waiting == 0 {
        return Err("no entry".into());
    }
    let start = Instant::now(rt)?;
    let sealed = room.seal();
    let spent = start.elapsed(rt)?.as_nanos();
    sealed.ok().ok_or("seal")?;
    Ok(spent)
}

fn seal_all<R: Clock, D: LogDisk>(rt: &R, alloc: Global, room: &mut Room<D>) -> Result<u128, Fail> {
    let mut spent: u128 = 0;
    for _epoch in 0..60u32 {
        for n in 0..64u32 {
            commit(room, &entry(alloc, n)?)?;
        }
        spent = spent.saturating_add(seal(rt, room)?);
    }
    Ok(spent)
}

fn main(rt: HostRuntime) -> Result<(), Fail> {
    let mut args = std::env::args(&rt)?;
    let _program = args.next();
    let path = args.next().ok_or("a path")?;
    let disk = FileDisk::make(&rt, rt.alloc(), path.as_str(), 64, 65_536)?;
    let mut room = new_room(rt.alloc(), disk)?;
    let spent = seal_all(&rt, rt.alloc(), &mut room)?;
    println!(rt; "{spent}")?;
    Ok(())
}
EOT

cat > "$speed/proofs/new_room/Answers.antt" <<'EOT'
use Rattle.std.proofs.Common.{List, [], None, refl, sym, subst, arith}
use Rattle.fine_model.specs.declared.Part.{Part}
use Rattle.fine_model.specs.Trees.{is_distinct}
use Rattle.log_disk.specs.Disk.{Disk, new_disk}
use Rattle.epoch_room.specs.Whole.{AreParts, IsIdle}
use Rattle.room_speed.proofs.new_room.Goals as goal

idle : IsIdle (new_disk 64 65536 None)
idle = record { geometry = record { regions_low = omega arith; regions_high = omega arith; len_low = omega arith; len_high = omega arith; whole = refl }; synced = refl; no_eyes = refl }

none : AreParts (new_disk 64 65536 None) [] []
unfolding is_distinct
none = record { in_chain = record { follow = tt }; apart = record { distinct = refl; below = tt }; lie = tt; rising = tt; told = tt }

pub make-requires-clause-idle : goal.make-requires-clause-idle
make-requires-clause-idle g c = λ _ _. subst IsIdle (sym c.requires) idle

pub make-requires-clause-parts : goal.make-requires-clause-parts
make-requires-clause-parts g c = λ _ _.
    subst (λ (ps : List Part). AreParts (g.D.LogDisk.state c.args.disk) ps c.new-2.result) (sym c.new.ensures)
    (subst (λ (ps : List Part). AreParts (g.D.LogDisk.state c.args.disk) [] ps) (sym c.new-2.ensures) (subst (λ (d : Disk). AreParts d [] []) (sym c.requires) none))
EOT

cat > "$speed/proofs/seal/Answers.antt" <<'EOT'
use Rattle.std.proofs.Common.{◌≡◌, ◌≢◌, ap, arith}
use Rattle.epoch_room.specs.Fitting.{counts_of}
use Rattle.epoch_room.specs.declared.answers.Counts.{Counts}
use Rattle.room_speed.proofs.seal.Goals as goal

pub seal-sealed-requires-clause-waiting : goal.seal-sealed-requires-clause-waiting
unfolding counts_of
seal-sealed-requires-clause-waiting g c = λ _ _.
    let same : c.counts.result.waiting ≡ c.args.room.now.room.waiting = ap (λ (counts : Counts). counts.waiting) c.counts.ensures.counts in
    let some : c.counts.result.waiting ≢ 0 = c.if-counts-eq0.false in omega (arith, same, some)
EOT

cat > "$work/calls.c" <<'EOF'
#include <fcntl.h>
#include <stdio.h>
#include <string.h>
#include <time.h>
#include <unistd.h>

static long now(void) {
    struct timespec t;
    clock_gettime(CLOCK_MONOTONIC, &t);
    return t.tv_sec * 1000000000L + t.tv_nsec;
}

/* the header, 64 rows of 134 bytes, and 16 index entries */
enum { REGION = 65536, LEN = 40 + 64 * 134 + 16 * 14 };

int main(int argc, char **argv) {
    static char bytes[LEN];
    static const char gate = (char)0xa7;
    int fd = open(argv[argc - 1], O_RDWR | O_CREAT, 0666);
    if (fd < 0 || ftruncate(fd, 64L * REGION) || fdatasync(fd)) return 1;
    memset(bytes, 7, sizeof bytes);
    long spent = 0;
    for (long region = 0; region < 60; region++) {
        long start = now();
        if (pwrite(fd, bytes, LEN, region * REGION + 1) != LEN || fdatasync(fd)) return 1;
        if (pwrite(fd, &gate, 1, region * REGION) != 1 || fdatasync(fd)) return 1;
        spent += now() - start;
    }
    printf("%ld\n", spent);
    return 0;
}
EOF

gcc -O2 -o "$work/calls" "$work/calls.c"
proved room_speed "fine_model log_disk private_log epoch_room"
cd "$speed"
for place in "$work" "$memory"; do
  for turn in $(seq 1 24); do
    rm -f "$place/c.log" "$place/room.log"
    echo "$("$work/calls" "$place/c.log") $(out/room_speed "$place/room.log")"
  done | awk -v place="$([ "$place" = "$work" ] && echo disk || echo memory)" '
    { for (i = 1; i <= 2; i++) if (NR == 1 || $i < best[i]) best[i] = $i }
    END { printf "a file in the %s: C %.1f microseconds an epoch, the room %.1f: %.2f of C\n", place, best[1] / 60000, best[2] / 60000, best[2] / best[1] }'
done
