//! What Linux tells of a block device.

use std::ffi::{c_int, c_ulong};
use std::fs::File;
use std::io;
use std::os::fd::AsRawFd;

/// linux/fs.h
const BLKROGET: c_ulong = 0x125E;
const BLKRRPART: c_ulong = 0x125F;
const BLKSSZGET: c_ulong = 0x1268;

extern "C" {
    fn ioctl(fd: c_int, request: c_ulong, ...) -> c_int;
}

/// The bytes of a logical block.
pub fn logical_block(device: &File) -> io::Result<u64> {
    number(device, BLKSSZGET)
}

pub fn read_only(device: &File) -> io::Result<bool> {
    Ok(number(device, BLKROGET)? != 0)
}

fn number(device: &File, request: c_ulong) -> io::Result<u64> {
    let mut answer: c_int = 0;
    // Safety: the descriptor is open, and the requests that are made here write one int.
    let status = unsafe { ioctl(device.as_raw_fd(), request, &mut answer) };
    match u64::try_from(answer) {
        Ok(answer) if status == 0 => Ok(answer),
        _ => Err(io::Error::last_os_error()),
    }
}

/// Has the kernel read the partition table anew. A device that has no partitions of its own (a loop device without
/// a scan, say) answers InvalidInput.
pub fn reread(device: &File) -> io::Result<()> {
    // Safety: the descriptor is open, and BLKRRPART takes no argument.
    match unsafe { ioctl(device.as_raw_fd(), BLKRRPART) } {
        0 => Ok(()),
        _ => Err(io::Error::last_os_error()),
    }
}
