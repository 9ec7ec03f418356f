#!/bin/sh
# Shows what a disk in a file asks of the system, which no contract can say: it lists the calls on the file by `strace` and
# compares them with those that a new disk, a write, a sync and a read by an eye must make. It ends with status 1 where
# they differ. The program that makes the calls is proved before it is built.
set -e
top=$(cd "$(dirname "$0")/.." && pwd)
work=$(mktemp -d)
trap 'rm -rf "$work"' EXIT
calls="$work/crates/disk_calls"
mkdir -p "$calls/src" "$calls/specs" "$calls/proofs"
. "$top/bench/proved.sh"
: > "$calls/specs/Lib.antt"
: > "$calls/proofs/Lib.antt"

cat > "$calls/src/main.rt" <<'EOT'
//! Makes a disk in a file, writes, syncs, and reads by an eye.
#![tactic(auto)]

ghost use Rattle.std.specs.Prelude.{◌≡◌, ◌<◌, ◌≤◌, []};

use log_disk::{DiskRefusal, FileDisk, LogDisk, LogEye};
use std::env;
use std::test::Fail;

fn look<D: LogDisk>(disk: &mut D) -> Result<u8, DiskRefusal>
    requires there { 1 < (D.state disk.old).regions }
    requires long { 6 ≤ (D.state disk.old).region_len }
    requires synced { (D.state disk.old).unsynced ≡ [] }
{
    let mut byte = [0u8; 1];
    let mut eye = disk.eye(&[1])?;
    let read = eye.read(1, 5, &mut byte);
    disk.close(eye);
    read?;
    Ok(byte[0])
}

fn main(rt: HostRuntime) -> Result<(), Fail> {
    let args = env::args(&rt)?.skip(1).collect::<Vec<String>>(rt.alloc())?;
    if let Some(path) = args.first() {
        let mut disk = FileDisk::make(&rt, rt.alloc(), path.as_str(), 4, 4096)?;
        disk.write(1, 5, &[7])?;
        disk.sync()?;
        let byte = look(&mut disk)?;
        println!(rt; "{byte}")?;
    }
    Ok(())
}
EOT

cat > "$work/wanted" <<'EOT'
flock LOCK_EX|LOCK_NB
ftruncate 16384
fdatasync
pwrite64 1, 4101
fdatasync
pread64 1, 4101
EOT

proved disk_calls log_disk
cd "$calls"
strace -o "$work/trace" -P "$work/log" -e trace=flock,ftruncate,fsync,fdatasync,pwrite64,pread64 ./out/disk_calls "$work/log"
sed -E 's/^([a-z0-9]+)\([0-9]+(, "[^"]*")?(, )?(.*)\) += [0-9]+$/\1 \4/; s/ $//' "$work/trace" | grep -v '^+++' > "$work/found"
diff "$work/wanted" "$work/found"
echo "the calls on the file are those that were wanted"
