//! The changes of folders, as Linux reports them: inotify(7) and poll(2), which the C library has.

use std::ffi::{CString, OsStr};
use std::fs::File;
use std::io::{self, Read};
use std::os::raw::{c_char, c_int, c_short, c_uint, c_ulong};
use std::os::unix::ffi::OsStrExt;
use std::os::unix::io::{AsRawFd, FromRawFd};
use std::path::Path;
use std::time::Duration;

// (linux/inotify.h and fcntl.h; the same numbers on x86-64 and aarch64)
const IN_CLOEXEC: c_int = 0o2_000_000;
const IN_NONBLOCK: c_int = 0o4_000;
const IN_ONLYDIR: u32 = 0x0100_0000;
pub const IN_MODIFY: u32 = 0x2;
pub const IN_ATTRIB: u32 = 0x4;
pub const IN_CLOSE_WRITE: u32 = 0x8;
pub const IN_MOVED_FROM: u32 = 0x40;
pub const IN_MOVED_TO: u32 = 0x80;
pub const IN_CREATE: u32 = 0x100;
pub const IN_DELETE: u32 = 0x200;
pub const IN_Q_OVERFLOW: u32 = 0x4000;
pub const IN_IGNORED: u32 = 0x8000;
const ALL: u32 =
    IN_MODIFY | IN_ATTRIB | IN_CLOSE_WRITE | IN_MOVED_FROM | IN_MOVED_TO | IN_CREATE | IN_DELETE | IN_ONLYDIR;
const POLLIN: c_short = 1;

/// The numbers at the start of an event: the folder, the mask, a cookie and the length of the name.
const HEAD: usize = 16;

#[repr(C)]
#[allow(non_camel_case_types)]
struct pollfd {
    fd: c_int,
    events: c_short,
    revents: c_short,
}

extern "C" {
    fn inotify_init1(flags: c_int) -> c_int;
    fn inotify_add_watch(fd: c_int, path: *const c_char, mask: c_uint) -> c_int;
    fn poll(fds: *mut pollfd, count: c_ulong, timeout: c_int) -> c_int;
}

/// A change: the number of the folder that it is in, what it is, and the name of the file.
pub struct Change<'a> {
    pub folder: i32,
    pub mask: u32,
    pub name: &'a OsStr,
}

/// The changes of some folders.
pub struct Changes(File);

impl Changes {
    pub fn new() -> io::Result<Changes> {
        // SAFETY: the function takes any flags.
        let file = unsafe { inotify_init1(IN_CLOEXEC | IN_NONBLOCK) };
        if file < 0 {
            return Err(io::Error::last_os_error());
        }
        // SAFETY: the descriptor is open, and nobody else has it.
        Ok(Changes(unsafe { File::from_raw_fd(file) }))
    }

    /// Also reports the changes of this folder. Its number is the same if it was added before.
    pub fn add(&self, folder: &Path) -> io::Result<i32> {
        let name = CString::new(folder.as_os_str().as_bytes())?;
        // SAFETY: the descriptor is open, and the name is terminated by NUL.
        let number = unsafe { inotify_add_watch(self.0.as_raw_fd(), name.as_ptr(), ALL) };
        if number < 0 {
            return Err(io::Error::last_os_error());
        }
        Ok(number)
    }

    /// Calls `see` with each change since the last call. It doesn't wait.
    pub fn read(&self, mut see: impl FnMut(Change<'_>)) {
        let mut bytes = [0; 8192];
        while let Ok(len @ 1..) = (&self.0).read(&mut bytes) {
            let mut rest = &bytes[..len];
            while let Some((change, after)) = first(rest) {
                see(change);
                rest = after;
            }
        }
    }

    /// Waits for a change, for something to read in `other`, or for the end of this time, and returns whether there is
    /// something to read in `other`.
    pub fn wait(&self, other: &impl AsRawFd, time: Duration) -> bool {
        wait([self.0.as_raw_fd(), other.as_raw_fd()], time)[1]
    }
}

/// Waits for something to read in `file`, or for the end of this time, and returns whether there is something.
pub fn wait_for(file: &impl AsRawFd, time: Duration) -> bool {
    wait([file.as_raw_fd()], time)[0]
}

fn wait<const COUNT: usize>(files: [c_int; COUNT], time: Duration) -> [bool; COUNT] {
    let mut files = files.map(|fd| pollfd {
        fd,
        events: POLLIN,
        revents: 0,
    });
    let milliseconds = c_int::try_from(time.as_millis()).unwrap_or(c_int::MAX);
    // SAFETY: there are COUNT structs, which may be written to. (a signal that ends the wait is as its end)
    unsafe { poll(files.as_mut_ptr(), COUNT as c_ulong, milliseconds) };
    files.map(|it| it.revents != 0)
}

/// The first event of some bytes, and what comes after it.
fn first(bytes: &[u8]) -> Option<(Change<'_>, &[u8])> {
    let number = |at: usize| Some(u32::from_ne_bytes(bytes.get(at..at + 4)?.try_into().ok()?));
    let len = usize::try_from(number(12)?).ok()?;
    let name = bytes.get(HEAD..HEAD + len)?;
    let name = name.split(|it| *it == 0).next().unwrap_or(name);
    let change = Change {
        folder: i32::from_ne_bytes(bytes[..4].try_into().ok()?),
        mask: number(4)?,
        name: OsStr::from_bytes(name),
    };
    Some((change, &bytes[HEAD + len..]))
}
