#!/bin/sh
# Prints how fast a disk in a file and an eye on it are, as ratios to the same calls made by a C program beside it: sequential
# writes of 1 MiB with one sync, and reads of 4 KiB, 64 MiB of each. Both run a few times in turn, and the best of each counts.
# It is no test. The timing program is proved before it is built, since only a proved build is optimized.
set -e
top=$(cd "$(dirname "$0")/.." && pwd)
work=$(mktemp -d)
trap 'rm -rf "$work"' EXIT
speed="$work/crates/disk_speed"
mkdir -p "$work/crates" "$speed/src" "$speed/specs"
. "$top/bench/proved.sh"
for function in write_all read_all look_all time_all; do mkdir -p "$speed/proofs/$function"; done
: > "$speed/specs/Lib.antt"
: > "$speed/proofs/Lib.antt"

cat > "$speed/src/main.rt" <<'EOT'
//! Times a disk in a file.
#![tactic(auto)]

ghost use Rattle.std.specs.Prelude.{◌≡◌, [], ◌∷◌, length, IfOk};
ghost use Rattle.log_disk.specs.Disk.{SameBeside};

use log_disk::{DiskRefusal, Failed, FileDisk, LogDisk, LogEye};
use std::alloc::{AllocError, Global};
use std::rt::Clock;
use std::test::Fail;
use std::time::Instant;

const REGION_LEN: u64 = 4_194_304;

const BLOCK: u64 = 1_048_576;

const PAGE: u64 = 4096;

fn write_all<D: LogDisk>(disk: &mut D, block: &[u8]) -> Result<(), DiskRefusal>
    requires regions { (D.state disk.old).regions ≡ 16 }
    requires region_len { (D.state disk.old).region_len ≡ 4194304 }
    requires no_eyes { (D.state disk.old).eyes ≡ [] }
    requires block { length block.now ≡ 1048576 }
    ensures beside { SameBeside (D.state disk.old) (D.state disk.new) }
{
    for n in 0..64u32 {
        disk.write(n / 4, u64::from(n % 4) * BLOCK, block)?;
    }
    Ok(())
}

fn read_all<D: LogDisk>(disk: &mut D, page: &mut [u8]) -> Result<(), Failed>
    requires regions { (D.state disk.old).regions ≡ 16 }
    requires region_len { (D.state disk.old).region_len ≡ 4194304 }
    requires page { length page.old ≡ 4096 }
    ensures beside { SameBeside (D.state disk.old) (D.state disk.new) }
    ensures unsynced { (D.state disk.new).unsynced ≡ (D.state disk.old).unsynced }
{
    for n in 0..16384u32 {
        disk.read(n / 1024, u64::from(n % 1024) * PAGE, page)?;
    }
    Ok(())
}

fn look_all<E: LogEye>(eye: &mut E, page: &mut [u8]) -> Result<(), Failed>
    requires regions { (E.state eye.old).regions ≡ 0 ∷ [] }
    requires region_len { (E.state eye.old).region_len ≡ 4194304 }
    requires page { length page.old ≡ 4096 }
    ensures same { (E.state eye.new).number ≡ (E.state eye.old).number }
{
    for n in 0..16384u32 {
        eye.read(0, u64::from(n % 1024) * PAGE, page)?;
    }
    Ok(())
}

/// Bytes to write.
fn block_of(alloc: Global, len: usize) -> Result<Vec<u8>, AllocError>
    ensures { IfOk result (λ block. length block.items ≡ len) }
{
    vec![in alloc; 7u8; len]
}

/// The microseconds that writes, reads by the disk and reads by an eye take.
struct Times {
    writes: u128,
    reads: u128,
    looks: u128,
}

fn time_all<R: Clock, D: LogDisk>(rt: &R, alloc: Global, disk: &mut D) -> Result<Times, Fail>
    requires regions { (D.state disk.old).regions ≡ 16 }
    requires region_len { (D.state disk.old).region_len ≡ 4194304 }
    requires no_eyes { (D.state disk.old).eyes ≡ [] }
{
    let block = block_of(alloc, 1_048_576)?;
    let start = Instant::now(rt)?;
    write_all(disk, &block)?;
    disk.sync()?;
    let writes = start.elapsed(rt)?.as_micros();
    let mut page = block_of(alloc, 4096)?;
    let start = Instant::now(rt)?;
    read_all(disk, &mut page)?;
    let reads = start.elapsed(rt)?.as_micros();
    let start = Instant::now(rt)?;
    let mut eye = disk.eye(&[0])?;
    let looked = look_all(&mut eye, &mut page);
    let looks = start.elapsed(rt);
    disk.close(eye);
    looked?;
    Ok(Times {
        writes,
        reads,
        looks: looks?.as_micros(),
    })
}

fn main(rt: HostRuntime) -> Result<(), Fail> {
    let mut args = std::env::args(&rt)?;
    let _program = args.next();
    let path = args.next().ok_or("a path")?;
    let mut disk = FileDisk::make(&rt, rt.alloc(), path.as_str(), 16, REGION_LEN)?;
    let Times { writes, reads, looks } = time_all(&rt, rt.alloc(), &mut disk)?;
    println!(rt; "{writes} {reads} {looks}")?;
    Ok(())
}
EOT

cat > "$speed/proofs/write_all/Invariants.antt" <<'EOT'
use Rattle.log_disk.specs.Disk.{SameBeside}
use Rattle.disk_speed.proofs.write_all.Given as goal

abbrev pub invariant-loop-n : goal.invariant-loop-n
invariant-loop-n g l = SameBeside (g.D.LogDisk.state l.fn.disk) (g.D.LogDisk.state l.disk)
EOT

cat > "$speed/proofs/read_all/Invariants.antt" <<'EOT'
use Rattle.std.proofs.Common.{◌≡◌}
use Rattle.log_disk.specs.Disk.{SameBeside}
use Rattle.disk_speed.proofs.read_all.Given as goal

abbrev pub invariant-loop-n : goal.invariant-loop-n
invariant-loop-n g l =
    let old = g.D.LogDisk.state l.fn.disk in
    let now = g.D.LogDisk.state l.disk in
    record { beside : SameBeside old now; unsynced : now.unsynced ≡ old.unsynced }
EOT

cat > "$speed/proofs/look_all/Invariants.antt" <<'EOT'
use Rattle.std.proofs.Common.{◌≡◌}
use Rattle.disk_speed.proofs.look_all.Given as goal

abbrev pub invariant-loop-n : goal.invariant-loop-n
invariant-loop-n g l =
    let old = g.E.LogEye.state l.fn.eye in
    let now = g.E.LogEye.state l.eye in
    record { number : now.number ≡ old.number; regions : now.regions ≡ old.regions; region_len : now.region_len ≡ old.region_len }
EOT

cat > "$speed/proofs/time_all/Answers.antt" <<'EOT'
use Rattle.std.proofs.Common.{◌≡◌, ℕ, ◌<◌, List, [], length, ap, ◌∙◌, arith}
use Rattle.std.specs.Prelude.{Contains}
use Rattle.log_disk.proofs.Seeing.{closable, opens_open}
use Rattle.disk_speed.proofs.time_all.Goals as goal

none_in : (xs : List ℕ) (x : ℕ) → xs ≡ [] → Contains xs x → ⊥
none_in xs x empty there = let short : length xs ≡ 0 = ap length empty in omega (arith, there.1)

pub eye-requires-clause-synced : goal.eye-requires-clause-synced
eye-requires-clause-synced g c = λ k d below there. none_in _ _ (c.read_all.ensures.unsynced ∙ c.in_ok-sync.ensures.ok.unsynced) there

pub close-requires : goal.close-requires
close-requires g c = closable (g.D.Eye.LogEye.state c.look_all-looked.new.eye) (opens_open c.in_ok-eye.ensures.ok) c.look_all-looked.ensures.same
EOT

cat > "$work/calls.c" <<'EOF'
#include <fcntl.h>
#include <stdio.h>
#include <stdlib.h>
#include <string.h>
#include <time.h>
#include <unistd.h>

static long now(void) {
    struct timespec t;
    clock_gettime(CLOCK_MONOTONIC, &t);
    return t.tv_sec * 1000000L + t.tv_nsec / 1000;
}

int main(int argc, char **argv) {
    static char block[1048576], page[4096];
    const long len = 64L * 1048576;
    int fd = open(argv[argc - 1], O_RDWR | O_CREAT, 0666);
    if (fd < 0 || ftruncate(fd, len) || fdatasync(fd)) return 1;
    memset(block, 7, sizeof block);
    long start = now();
    for (long at = 0; at < len; at += sizeof block)
        if (lseek(fd, at, SEEK_SET) != at || write(fd, block, sizeof block) != sizeof block) return 1;
    if (fdatasync(fd)) return 1;
    long wrote = now() - start;
    start = now();
    for (long at = 0; at < len; at += sizeof page)
        if (lseek(fd, at, SEEK_SET) != at || read(fd, page, sizeof page) != sizeof page) return 1;
    printf("%ld %ld\n", wrote, now() - start);
    return 0;
}
EOF

gcc -O2 -o "$work/calls" "$work/calls.c"
proved disk_speed log_disk
cd "$speed"
for turn in 1 2 3 4 5 6 7 8; do
  echo "$("$work/calls" "$work/c.log") $(out/disk_speed "$work/disk.log")"
done | awk '
  { for (i = 1; i <= 5; i++) if (NR == 1 || $i < best[i]) best[i] = $i }
  END {
    printf "microseconds: C %d and %d; disk %d, %d and, by an eye, %d\n", best[1], best[2], best[3], best[4], best[5]
    printf "writes of 1 MiB: %.2f of C\nreads of 4 KiB by the disk: %.2f of C\nreads of 4 KiB by an eye: %.2f of C\n", best[1] / best[3], best[2] / best[4], best[2] / best[5]
  }'
