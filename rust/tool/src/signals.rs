//! Signals that end the process: it ends by them as it would have, once what must not stay is removed.
//!
//! One thread, which runs the command, makes outputs, and the same one removes them: others hand their signals to it. So no output
//! is made while they are removed, and a second signal waits until the first is done.

use crate::guard::{remove_temporaries, tell_fault};
use libc::{c_int, c_long, c_void, siginfo_t};
use std::io;
use std::mem::zeroed;
use std::ptr;
use std::sync::atomic::{AtomicBool, AtomicU64, Ordering::SeqCst};

const LAST: c_int = 64;

/// What a thread does wrong itself raises these. They can't be ignored then, only where somebody sends them.
const FAULTS: [c_int; 6] = [
    libc::SIGBUS,
    libc::SIGSEGV,
    libc::SIGILL,
    libc::SIGFPE,
    libc::SIGTRAP,
    libc::SIGSYS,
];

/// What the system tells of a signal that was sent to one thread, as `abort` does to its own: SI_TKILL.
const FROM_A_THREAD: c_int = -6;

/// They end no process, or nothing can be done about them.
const LEFT_ALONE: [c_int; 9] = [
    libc::SIGKILL,
    libc::SIGSTOP,
    libc::SIGCHLD,
    libc::SIGCONT,
    libc::SIGTSTP,
    libc::SIGTTIN,
    libc::SIGTTOU,
    libc::SIGURG,
    libc::SIGWINCH,
];

/// A bit for each signal that whoever started the process had it ignore.
static IGNORED: AtomicU64 = AtomicU64::new(0);
static PIPE_IGNORED: AtomicBool = AtomicBool::new(false);

/// The thread that runs the command, by the system's number; 0 for none.
static WORKER: AtomicU64 = AtomicU64::new(0);

/// While it lives, its thread is the one that signals are for.
pub struct Attending(());

impl Attending {
    pub fn here() -> Attending {
        WORKER.store(this_thread(), SeqCst);
        Attending(())
    }
}

impl Drop for Attending {
    fn drop(&mut self) {
        WORKER.store(0, SeqCst);
    }
}

fn this_thread() -> u64 {
    // SAFETY: a plain call.
    (unsafe { libc::syscall(libc::SYS_gettid) }) as u64
}

// SAFETY for the handler: nothing in it but calls that a handler may make, and `errno` is put back where it returns.

unsafe extern "C" fn on_signal(signal: c_int, info: *mut siginfo_t, _: *mut c_void) {
    let fault = FAULTS.contains(&signal) && (*info).si_code > 0;
    if !fault && IGNORED.load(SeqCst) & bit(signal) != 0 {
        return;
    }
    // `abort` doesn't wait for another thread; SIGABRT from outside does, as others do.
    let aborted = signal == libc::SIGABRT && (*info).si_code == FROM_A_THREAD;
    if !fault && !aborted && handed_on(signal) {
        return;
    }
    if fault && signal == libc::SIGBUS {
        tell_fault((*info).si_addr() as usize);
    }
    remove_temporaries();
    // The signal is held back until the handler returns; then it has its usual end.
    libc::signal(signal, libc::SIG_DFL);
    libc::raise(signal);
}

/// Whether the signal is now another thread's.
unsafe fn handed_on(signal: c_int) -> bool {
    let worker = WORKER.load(SeqCst);
    if worker == 0 || worker == this_thread() {
        return false;
    }
    let errno = *libc::__errno_location();
    let process = c_long::from(libc::getpid());
    let status = libc::syscall(
        libc::SYS_tgkill,
        process,
        worker as c_long,
        c_long::from(signal),
    );
    *libc::__errno_location() = errno;
    status == 0
}

fn bit(signal: c_int) -> u64 {
    1 << (signal - 1)
}

fn ignored(signal: c_int) -> bool {
    // SAFETY: a question; nothing is set.
    unsafe {
        let mut action: libc::sigaction = zeroed();
        libc::sigaction(signal, ptr::null(), &mut action) == 0
            && action.sa_sigaction == libc::SIG_IGN
    }
}

/// Rust's own start has SIGPIPE ignored, whatever was handed down: that is seen only before it.
extern "C" fn before_start() {
    PIPE_IGNORED.store(ignored(libc::SIGPIPE), SeqCst);
}

#[used]
#[link_section = ".init_array"]
static BEFORE_START: extern "C" fn() = before_start;

/// Sets the handlers, but for signals that are ignored: whoever had them so (nohup, a shell's background) means it.
pub fn install() -> io::Result<()> {
    for signal in (1..=LAST).filter(|signal| !LEFT_ALONE.contains(signal)) {
        let ignored = match signal {
            libc::SIGPIPE => PIPE_IGNORED.load(SeqCst),
            _ => ignored(signal),
        };
        if ignored {
            IGNORED.fetch_or(bit(signal), SeqCst);
        }
        if signal == libc::SIGXFSZ {
            // A limit on file size is to be an error of the call that meets it.
            // SAFETY: nothing is run.
            unsafe { libc::signal(signal, libc::SIG_IGN) };
        } else if !ignored || FAULTS.contains(&signal) {
            attend(signal)?;
        }
    }
    // The C library keeps these for itself and lets nobody catch them. They wait for ever: the tool uses neither.
    block(libc::SIG_BLOCK, bit(32) | bit(33));
    Ok(())
}

fn attend(signal: c_int) -> io::Result<()> {
    // SAFETY: the handler does what handlers may do. All other signals wait while it runs.
    let status = unsafe {
        let mut action: libc::sigaction = zeroed();
        action.sa_flags = libc::SA_SIGINFO | libc::SA_ONSTACK | libc::SA_RESTART;
        action.sa_sigaction = on_signal as *const () as usize;
        libc::sigfillset(&mut action.sa_mask);
        libc::sigaction(signal, &action, ptr::null_mut())
    };
    if status == 0 {
        return Ok(());
    }
    let error = io::Error::last_os_error();
    match error.raw_os_error() {
        // Numbers that the C library or an emulator keeps for itself.
        Some(libc::EINVAL) => Ok(()),
        _ => Err(error),
    }
}

/// Has this thread block signals, a bit each, in one of the ways that the system knows; gives those that were blocked before. The C
/// library's own call would leave out two that it keeps for itself.
fn block(how: c_int, signals: u64) -> u64 {
    let mut before = 0;
    // SAFETY: both masks are of the length that is told.
    unsafe {
        libc::syscall(
            libc::SYS_rt_sigprocmask,
            how,
            &signals as *const u64,
            &mut before as *mut u64,
            8usize,
        )
    };
    before
}

/// Does something that no signal may interrupt; one that comes waits. Signals are all handled by the thread that this is called on.
pub fn held_back<T>(work: impl FnOnce() -> T) -> T {
    let before = block(libc::SIG_BLOCK, u64::MAX);
    let done = work();
    block(libc::SIG_SETMASK, before);
    done
}
