//! The program when a call fails, and on input of any length in any pieces: what it says on
//! standard error and what it has answered by then. Its exit status is 0 after a failure too, but
//! where its reader has gone.

use compare::program::{path, start};
use reference::samples::{self, Random};
use reference::sheet::answer_sheet;
use reference::width::WIDTH_48;
use std::fs;
use std::io::{BufRead, BufReader, ErrorKind, Read, Write};
use std::os::fd::OwnedFd;
use std::os::unix::net::UnixStream;
use std::process::{Child, Command, ExitStatus, Output, Stdio};
use std::sync::mpsc;
use std::thread;
use std::time::Duration;

const HEADING: &str = "BKM\t48\n";
const MALFORMED: &str = "0\tREF\t5\n";
/// What a shell gives as the status of a program that SIGPIPE ended.
const READER_GONE: i32 = 141;

/// The program as the shell starts it after some commands and redirections.
fn shell(before: &str) -> Command {
    let mut command = Command::new("bash");
    command.arg("-c").arg(format!("{before} exec \"$0\"")).arg(path());
    command
}

/// The program between pipes.
fn piped() -> Child {
    start(Command::new(path()).stdin(Stdio::piped()).stdout(Stdio::piped()))
}

fn sheet_of(lines: usize) -> Vec<u8> {
    samples::sheet(&mut Random::new(20), lines, WIDTH_48)
}

fn answered(sheet: &[u8]) -> Vec<u8> {
    answer_sheet(sheet, WIDTH_48)
}

fn said(output: &Output) -> String {
    assert!(output.status.success());
    String::from_utf8(output.stderr.clone()).unwrap()
}

/// Waits for a program whose standard output need not be read; one that goes on is ended.
fn wait(child: &mut Child) -> ExitStatus {
    for _ in 0..2000 {
        if let Some(status) = child.try_wait().unwrap() {
            return status;
        }
        thread::sleep(Duration::from_millis(5));
    }
    child.kill().unwrap();
    panic!("the program goes on");
}

/// The program holds two buffers of 64 KiB; with the C library and the stack that is some 1.5 MB,
/// however much it has read.
fn check_memory(child: &Child) {
    let status = fs::read_to_string(format!("/proc/{}/status", child.id())).unwrap();
    let peak = status.lines().find_map(|line| line.strip_prefix("VmHWM:")?.strip_suffix("kB"));
    let peak: u64 = peak.unwrap().trim().parse().unwrap();
    assert!(peak < 4096, "{peak} kB");
}

/// A sheet that is named is not read, nor is standard input waited for.
#[test]
fn an_argument() {
    for arguments in [&["examples/kernels.sheet"][..], &["--help"], &["", "-"]] {
        let mut command = Command::new(path());
        command.args(arguments).stdin(Stdio::piped()).stdout(Stdio::piped()).stderr(Stdio::piped());
        let mut child = start(&mut command);
        let unclosed = child.stdin.take();
        wait(&mut child);
        let output = child.wait_with_output().unwrap();
        drop(unclosed);
        let wanted =
            "bkm: reads a sheet on standard input and takes no argument, as in: bkm < SHEET\n";
        assert_eq!(said(&output), wanted);
        assert!(output.stdout.is_empty());
    }
}

#[test]
fn output_that_cannot_be_written() {
    for (before, error) in
        [("> /dev/full", "No space left on device"), (">&-", "Bad file descriptor")]
    {
        let output = shell(before).stdin(Stdio::null()).output().unwrap();
        assert_eq!(said(&output), format!("bkm: standard output: {error}\n"));
    }
}

#[test]
fn input_that_cannot_be_read() {
    for (before, error) in [("< /", "Is a directory"), ("<&-", "Bad file descriptor")] {
        let output = shell(before).output().unwrap();
        assert_eq!(said(&output), format!("bkm: standard input: {error}\n"));
        assert_eq!(String::from_utf8_lossy(&output.stdout), HEADING);
    }
}

/// With every channel closed there is nobody to tell; the program ends all the same.
#[test]
fn nothing_open() {
    let mut child = start(&mut shell("<&- >&- 2>&-"));
    assert!(wait(&mut child).success());
}

/// A file that takes 8192 bytes: the write that crosses its end is cut short, the next one fails.
#[test]
fn output_that_ends_early() {
    let name = concat!(env!("CARGO_TARGET_TMPDIR"), "/ends_early.answer");
    let mut command = shell("trap '' XFSZ; ulimit -f 8; > \"$1\"");
    let mut child = start(command.arg(name).stdin(Stdio::piped()).stderr(Stdio::piped()));
    let sheet = sheet_of(20_000);
    let fed = child.stdin.take().unwrap().write_all(&sheet);
    assert_eq!(fed.unwrap_err().kind(), ErrorKind::BrokenPipe);
    let output = child.wait_with_output().unwrap();
    assert_eq!(said(&output), "bkm: standard output: File too large\n");
    assert_eq!(fs::read(name).unwrap(), answered(&sheet)[..8192]);
}

/// A socket that does not wait has nothing to read inside the second line: that line is not
/// answered.
#[test]
fn input_that_fails_inside_a_line() {
    let (mut ours, theirs) = UnixStream::pair().unwrap();
    theirs.set_nonblocking(true).unwrap();
    ours.write_all(b"1\tEXP\t40\t0\t0\t281474976710656\t0\n2\tLOG\t40\t0\t0").unwrap();
    let mut command = Command::new(path());
    let output = command.stdin(Stdio::from(OwnedFd::from(theirs))).output().unwrap();
    assert_eq!(said(&output), "bkm: standard input: Resource temporarily unavailable\n");
    let seen = String::from_utf8_lossy(&output.stdout);
    assert_eq!(seen, format!("{HEADING}1\tEXP\t40\t281474976710656\t0\t0\t0\t0\t2128\n"));
}

/// The reader goes after the heading. The program ends without a message, whether or not it was
/// started with SIGPIPE ignored: a Rattle program ignores it from its start, and the write fails.
/// The rest of the sheet is not read.
#[test]
fn reader_that_goes() {
    for before in ["", "trap '' PIPE;"] {
        let mut command = shell(before);
        command.stdin(Stdio::piped()).stdout(Stdio::piped()).stderr(Stdio::piped());
        let mut child = start(&mut command);
        child.stdout.take().unwrap().read_exact(&mut [0; HEADING.len()]).unwrap();
        let fed = child.stdin.take().unwrap().write_all(&sheet_of(20_000));
        assert_eq!(fed.unwrap_err().kind(), ErrorKind::BrokenPipe);
        assert_eq!(wait(&mut child).code(), Some(READER_GONE));
        let mut said = String::new();
        child.stderr.unwrap().read_to_string(&mut said).unwrap();
        assert_eq!(said, "");
    }
}

/// Stopped while it waits for room in a pipe, the program has written a part of its buffer: it
/// goes on with the rest.
#[test]
fn stopped_and_continued() {
    let sheet = sheet_of(20_000);
    let mut child = piped();
    let (mut stdin, mut stdout) = (child.stdin.take().unwrap(), child.stdout.take().unwrap());
    let signal = |name: &str| {
        let command = format!("kill -{name} {}", child.id());
        assert!(Command::new("bash").arg("-c").arg(command).status().unwrap().success());
    };
    let mut seen = Vec::new();
    thread::scope(|scope| {
        scope.spawn(|| {
            stdin.write_all(&sheet).unwrap();
            drop(stdin);
        });
        for _ in 0..5 {
            thread::sleep(Duration::from_millis(50));
            signal("STOP");
            thread::sleep(Duration::from_millis(10));
            signal("CONT");
            let mut some = [0; 5000];
            stdout.read_exact(&mut some).unwrap();
            seen.extend(some);
        }
        stdout.read_to_end(&mut seen).unwrap();
    });
    assert!(wait(&mut child).success());
    assert!(seen == answered(&sheet));
}

#[test]
fn line_of_300_megabytes() {
    let mut child = piped();
    let mut stdin = child.stdin.take().unwrap();
    let piece = [b'7'; 100_000];
    for _ in 0..3000 {
        stdin.write_all(&piece).unwrap();
    }
    check_memory(&child);
    drop(stdin);
    let output = child.wait_with_output().unwrap();
    assert!(output.status.success());
    assert_eq!(String::from_utf8_lossy(&output.stdout), format!("{HEADING}{MALFORMED}"));
}

#[test]
fn ten_million_malformed_lines() {
    let mut child = piped();
    let (mut stdin, stdout) = (child.stdin.take().unwrap(), child.stdout.take().unwrap());
    thread::scope(|scope| {
        scope.spawn(|| {
            let lines = b"1\tEXP\t40\t0\t0\n".repeat(1000);
            for _ in 0..10_000 {
                stdin.write_all(&lines).unwrap();
            }
            check_memory(&child);
            drop(stdin);
        });
        // Closed where an assertion fails, so that the writing ends too.
        let mut stdout = stdout;
        let mut heading = [0; HEADING.len()];
        stdout.read_exact(&mut heading).unwrap();
        assert_eq!(heading, HEADING.as_bytes());
        let wanted = MALFORMED.repeat(1000);
        let mut seen = vec![0; wanted.len()];
        for _ in 0..10_000 {
            stdout.read_exact(&mut seen).unwrap();
            assert!(seen == wanted.as_bytes());
        }
        assert_eq!(stdout.read(&mut seen).unwrap(), 0);
    });
    assert!(wait(&mut child).success());
}

/// A few bytes at a time: each answer comes when its line has ended, before the next one begins.
#[test]
fn pieces_with_pauses() {
    let sheet = sheet_of(12);
    let mut child = piped();
    let mut stdin = child.stdin.take().unwrap();
    let stdout = BufReader::new(child.stdout.take().unwrap());
    let (sender, answers) = mpsc::channel();
    thread::spawn(move || stdout.lines().for_each(|line| sender.send(line.unwrap()).unwrap()));
    let answer = || answers.recv_timeout(Duration::from_secs(10)).unwrap();
    let mut seen = vec![answer()];
    for line in sheet.split_inclusive(|&b| b == b'\n') {
        for piece in line.chunks(7) {
            thread::sleep(Duration::from_millis(3));
            stdin.write_all(piece).unwrap();
        }
        seen.push(answer());
    }
    drop(stdin);
    seen.extend(&answers);
    assert!(wait(&mut child).success());
    let wanted = String::from_utf8(answered(&sheet)).unwrap();
    assert_eq!(seen, wanted.lines().collect::<Vec<_>>());
}
