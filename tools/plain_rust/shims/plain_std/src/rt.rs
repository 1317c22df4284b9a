//! The runtime that `main` is given, and what it stands for.

use crate::alloc::{AllocError, Global};
use crate::io::{Eprint, Print, print_to};
use std::fmt::Arguments;
use std::io::{Result, Stdin, Write, stdin};
use std::mem::ManuallyDrop;
use std::os::fd::FromRawFd;
use std::time::Duration;

/// The files of the machine.
pub trait Files {}

/// The allocator of a runtime.
pub trait AllocGlobal {
    fn alloc(&self) -> Global;
}

/// The clock of the processor time that the process used.
pub trait CpuClock {
    fn process_cpu_time(&self) -> Result<Duration>;
}

/// The runtime of the machine.
#[derive(Debug)]
pub struct HostRuntime;

impl HostRuntime {
    #[allow(clippy::new_without_default)]
    pub fn new() -> HostRuntime {
        HostRuntime
    }

    #[allow(clippy::should_implement_trait)]
    pub fn clone(&self) -> std::result::Result<HostRuntime, AllocError> {
        Ok(HostRuntime)
    }

    /// The standard input.
    pub fn reader(&self) -> Stdin {
        stdin()
    }
}

impl Files for HostRuntime {}

impl AllocGlobal for HostRuntime {
    fn alloc(&self) -> Global {
        Global
    }
}

/// A time as the C library gives it.
#[repr(C)]
struct Time {
    seconds: i64,
    nanoseconds: i64,
}

/// The number of the clock of processor time.
const PROCESS_CPU_TIME: i32 = 2;

unsafe extern "C" {
    fn clock_gettime(clock: i32, time: *mut Time) -> i32;
}

impl CpuClock for HostRuntime {
    fn process_cpu_time(&self) -> Result<Duration> {
        let mut time = Time {
            seconds: 0,
            nanoseconds: 0,
        };
        // SAFETY: the call writes one time, of this layout on Linux.
        if unsafe { clock_gettime(PROCESS_CPU_TIME, &mut time) } != 0 {
            return Err(std::io::Error::last_os_error());
        }
        Ok(Duration::new(time.seconds as u64, time.nanoseconds as u32))
    }
}

impl Print for HostRuntime {
    fn print_text(&self, text: Arguments<'_>) -> Result<()> {
        print_to(1, text)
    }

    fn write_some(&self, bytes: &[u8]) -> Result<usize> {
        // SAFETY: the standard output is open, and stays so.
        let file = unsafe { std::fs::File::from_raw_fd(1) };
        (&*ManuallyDrop::new(file)).write(bytes)
    }
}

impl Eprint for HostRuntime {
    fn eprint_text(&self, text: Arguments<'_>) -> Result<()> {
        print_to(2, text)
    }
}
