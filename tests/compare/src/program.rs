//! The product's program. BKM_PROGRAM names it; without that it is `target/bin/bkm` of the
//! repository.

use reference::sheet::answer_sheet;
use reference::width::WIDTH_48;
use std::env;
use std::ffi::{c_int, c_ulong};
use std::io::Write;
use std::os::fd::AsRawFd;
use std::path::PathBuf;
use std::process::{Child, ChildStdin, Command, Stdio};
use std::thread;
use std::time::{Duration, Instant};

/// Linux: how many bytes of a pipe nobody has read yet, at either end.
const FIONREAD: c_ulong = 0x541b;

extern "C" {
    fn ioctl(descriptor: c_int, request: c_ulong, ...) -> c_int;
}

pub fn path() -> PathBuf {
    let built = concat!(env!("CARGO_MANIFEST_DIR"), "/../../target/bin/bkm");
    env::var_os("BKM_PROGRAM").map_or_else(|| built.into(), PathBuf::from)
}

pub fn start(command: &mut Command) -> Child {
    command.spawn().unwrap_or_else(|error| panic!("{command:?}: {error}"))
}

/// Waits until all of a pipe is read, so that what is written next comes by a read of its own.
fn wait_until_read(pipe: &ChildStdin) {
    let late = Instant::now() + Duration::from_secs(60);
    let mut unread: c_int = 1;
    while unread > 0 {
        // SAFETY: this request writes one int, at the address that is given.
        let status = unsafe { ioctl(pipe.as_raw_fd(), FIONREAD, &mut unread) };
        assert_eq!(status, 0, "{}", std::io::Error::last_os_error());
        assert!(Instant::now() < late, "{unread} bytes are not read");
        thread::sleep(Duration::from_micros(20));
    }
}

/// What the program writes for the pieces of its input, each written when the one before is read: no
/// two of them come as one.
pub fn answers(pieces: &[&[u8]]) -> Vec<u8> {
    let mut child = start(Command::new(path()).stdin(Stdio::piped()).stdout(Stdio::piped()));
    let mut stdin = child.stdin.take().unwrap();
    // Written beside the reading: both pipes are short.
    let output = thread::scope(|scope| {
        scope.spawn(move || {
            for piece in pieces {
                wait_until_read(&stdin);
                stdin.write_all(piece).unwrap();
            }
        });
        child.wait_with_output().unwrap()
    });
    assert!(output.status.success());
    output.stdout
}

/// Holds the program to the second implementation, line by line.
pub fn check(pieces: &[&[u8]]) {
    let (seen, wanted) = (answers(pieces), answer_sheet(&pieces.concat(), WIDTH_48));
    let lines = |bytes: &[u8]| bytes.split(|&b| b == b'\n').map(<[u8]>::to_vec).collect::<Vec<_>>();
    for (seen, wanted) in lines(&seen).into_iter().zip(lines(&wanted)) {
        assert_eq!(String::from_utf8_lossy(&seen), String::from_utf8_lossy(&wanted));
    }
    assert_eq!(seen.len(), wanted.len());
}
