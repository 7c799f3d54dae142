//! Descriptors that the standard library does not make: a pipe whose writer does not wait, and a terminal.

use std::ffi::{c_char, c_int, CStr, OsStr};
use std::fs::{File, OpenOptions};
use std::io;
use std::os::fd::{AsRawFd, FromRawFd};
use std::os::unix::ffi::OsStrExt;
use std::os::unix::fs::OpenOptionsExt;

const O_NOCTTY: c_int = 0o400;
const O_NONBLOCK: c_int = 0o4000;
const O_CLOEXEC: c_int = 0o2000000;

extern "C" {
    fn pipe2(ends: *mut c_int, flags: c_int) -> c_int;
    fn grantpt(controller: c_int) -> c_int;
    fn unlockpt(controller: c_int) -> c_int;
    fn ptsname_r(controller: c_int, name: *mut c_char, len: usize) -> c_int;
}

fn checked(answer: c_int) -> io::Result<()> {
    if answer == 0 {
        Ok(())
    } else {
        Err(io::Error::last_os_error())
    }
}

/// A pipe's reading end, which waits, and its writing end, which does not.
pub fn non_blocking_pipe() -> io::Result<(File, File)> {
    let mut ends = [-1; 2];
    // SAFETY: pipe2 writes two numbers, and where it answers 0 they are new descriptors, which nothing else owns.
    let (reader, writer) = unsafe {
        checked(pipe2(ends.as_mut_ptr(), O_CLOEXEC))?;
        (File::from_raw_fd(ends[0]), File::from_raw_fd(ends[1]))
    };
    // Opened a second time: the flag belongs to an opening, and so the reading end does not get it.
    let again = format!("/proc/self/fd/{}", writer.as_raw_fd());
    Ok((reader, OpenOptions::new().write(true).custom_flags(O_NONBLOCK).open(again)?))
}

/// The two ends of a terminal: what is written to the controller, the device reads as typed.
pub struct Terminal {
    pub controller: File,
    pub device: File,
}

pub fn terminal() -> io::Result<Terminal> {
    let mut open = OpenOptions::new();
    open.read(true).write(true).custom_flags(O_NOCTTY);
    let controller = open.open("/dev/ptmx")?;
    let mut name = [0; 64];
    // SAFETY: the descriptor is a terminal's controller, and the name has the length that is given.
    unsafe {
        checked(grantpt(controller.as_raw_fd()))?;
        checked(unlockpt(controller.as_raw_fd()))?;
        checked(ptsname_r(controller.as_raw_fd(), name.as_mut_ptr(), name.len()))?;
    }
    // SAFETY: ptsname_r answered 0, so a 0 ends the name.
    let name = unsafe { CStr::from_ptr(name.as_ptr()) };
    let device = open.open(OsStr::from_bytes(name.to_bytes()))?;
    Ok(Terminal { controller, device })
}
