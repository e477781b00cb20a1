//! What std has no form for: the processor time of this process, and what a child used.
use std::ffi::c_long;
use std::fs::{self, File};
use std::io::Write;
use std::path::Path;
use std::process::{Command, Stdio};

#[repr(C)]
#[derive(Default)]
struct Timespec {
    seconds: c_long,
    nanoseconds: c_long,
}

#[repr(C)]
#[derive(Default)]
struct Rusage {
    user: [c_long; 2],
    system: [c_long; 2],
    others: [c_long; 14],
}

const PROCESS_CPU: i32 = 2;

unsafe extern "C" {
    fn clock_gettime(clock: i32, time: *mut Timespec) -> i32;
    fn wait4(pid: i32, status: *mut i32, options: i32, usage: *mut Rusage) -> i32;
}

/// Seconds of processor time that this process has used: other work on the machine does not count.
pub fn processor_time() -> f64 {
    let mut t = Timespec::default();
    // SAFETY: the pointer is to a timespec of this platform's layout.
    let got = unsafe { clock_gettime(PROCESS_CPU, &mut t) };
    assert_eq!(got, 0, "no processor clock");
    t.seconds as f64 + t.nanoseconds as f64 / 1e9
}

/// Seconds of processor time that a run of a program used, in the program and in the system.
#[derive(Clone, Copy)]
pub struct Used {
    pub user: f64,
    pub system: f64,
}

impl Used {
    pub fn total(&self) -> f64 {
        self.user + self.system
    }
}

/// Runs a program from one file to another.
pub fn run(program: &Path, input: &Path, output: &Path) -> Used {
    let input = File::open(input).expect("the stream");
    let output = File::create(output).expect("the output");
    let child = Command::new(program).stdin(Stdio::from(input)).stdout(Stdio::from(output)).spawn().expect("the program");
    let mut status = 0;
    let mut usage = Rusage::default();
    // SAFETY: the child is ours and is waited for here only; the pointers are to an int and to a rusage of this platform's layout.
    let got = unsafe { wait4(child.id() as i32, &mut status, 0, &mut usage) };
    assert!(got == child.id() as i32 && status == 0, "{} failed", program.display());
    let seconds = |t: [c_long; 2]| t[0] as f64 + t[1] as f64 / 1e6;
    Used { user: seconds(usage.user), system: seconds(usage.system) }
}

/// Kilobytes of memory that a program held at most when it had read all of a stream and waited for more.
pub fn memory(program: &Path, stream: &[u8]) -> u64 {
    let mut child = Command::new(program).stdin(Stdio::piped()).stdout(Stdio::null()).spawn().expect("the program");
    let mut pipe = child.stdin.take().expect("its standard input");
    pipe.write_all(stream).expect("the stream");
    let path = format!("/proc/{}/status", child.id());
    let kilobytes = loop {
        let status = fs::read_to_string(&path).expect("the child's status");
        let field = |name: &str| status.lines().find_map(|line| line.strip_prefix(name)).expect("a field of the status").trim();
        if field("State:").starts_with('S') {
            break field("VmHWM:").trim_end_matches(" kB").parse().expect("a number");
        }
    };
    drop(pipe);
    assert!(child.wait().expect("its end").success());
    kilobytes
}

/// The least stack, in kilobytes, on which a program reads a stream to its end.
pub fn stack(program: &Path, input: &Path) -> u64 {
    let runs = |kilobytes: u64| {
        let shell = "ulimit -S -s $1 && exec \"$2\" < \"$3\"";
        let status = Command::new("/bin/sh")
            .env_clear()
            .args(["-c", shell, "sh", &kilobytes.to_string()])
            .args([program, input])
            .stdout(Stdio::null())
            .stderr(Stdio::null())
            .status();
        status.expect("a shell").success()
    };
    let (mut too_little, mut enough) = (0, 8_192);
    assert!(runs(enough));
    while enough - too_little > 1 {
        let between = (too_little + enough) / 2;
        if runs(between) { enough = between } else { too_little = between }
    }
    enough
}
