//! Which file systems answer at once. A network's or a user's may not answer for long: no session's
//! thread may wait for that.
use rustix::fd::AsFd;
use rustix::fs::{fstatfs, statx, AtFlags, StatxFlags};
use std::collections::HashMap;
use std::sync::{Arc, Mutex, PoisonError};
use std::time::{Duration, Instant};

/// How long it is known of what kind a device is: later another file system may have its number.
const KNOWN: Duration = Duration::from_secs(10);
/// The types of file systems in memory: tmpfs and ramfs.
const IN_MEMORY: [u32; 2] = [0x0102_1994, 0x8584_58f6];
/// Those on disks, which have the facts of each file that is in use: ext4, XFS, Btrfs and F2FS.
const ON_DISK: [u32; 4] = [0xef53, 0x5846_5342, 0x9123_683e, 0xf2f5_2010];

/// What a file system waits for.
#[derive(Clone, Copy, Debug, PartialEq, Eq)]
pub enum Kind {
    /// For nothing.
    Memory,
    /// For its disk where it opens a file, and for nothing where it is asked for facts that the kernel
    /// has.
    Disk,
    /// For what isn't known.
    Other,
}

/// The kinds of the devices that were met.
#[derive(Clone, Debug, Default)]
pub struct Devices(Arc<Mutex<Known>>);

/// The kind of a device, by its numbers, and when that was met.
type Known = HashMap<(u32, u32), (Kind, Instant)>;

impl Devices {
    /// The kind of the file system of an open file, where it is known. This waits for nothing.
    pub fn kind(&self, file: impl AsFd) -> Option<Kind> {
        let known = self.0.lock().unwrap_or_else(PoisonError::into_inner);
        let (kind, met) = known.get(&device(file)?)?;
        (met.elapsed() < KNOWN).then_some(*kind)
    }

    /// Learns the kind of the file system of an open file, which may wait for it.
    pub fn learn(&self, file: impl AsFd) {
        let file = file.as_fd();
        let Some(device) = device(file).filter(|_| self.kind(file).is_none()) else { return };
        let kind = fstatfs(file).map_or(Kind::Other, |facts| match facts.f_type as u32 {
            number if IN_MEMORY.contains(&number) => Kind::Memory,
            number if ON_DISK.contains(&number) => Kind::Disk,
            _ => Kind::Other,
        });
        let mut known = self.0.lock().unwrap_or_else(PoisonError::into_inner);
        known.insert(device, (kind, Instant::now()));
    }
}

/// The device of an open file, as the kernel has it in memory.
fn device(file: impl AsFd) -> Option<(u32, u32)> {
    let flags = AtFlags::EMPTY_PATH | AtFlags::STATX_DONT_SYNC;
    let facts = statx(file, "", flags, StatxFlags::empty()).ok()?;
    Some((facts.stx_dev_major, facts.stx_dev_minor))
}
