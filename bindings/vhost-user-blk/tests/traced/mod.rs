//! Which bytes of a mapping the code of a call loads and stores, instruction by instruction: each access faults, is
//! noted, and is made by a single step. It is for x86-64.

use std::mem::zeroed;
use std::ptr::null_mut;
use std::sync::atomic::{AtomicUsize, Ordering::SeqCst};

/// An access: where in the mapping, how many bytes, and whether they are stored. What one call of the C library's copy
/// loads or stores is one access here, though it comes to bytes twice: it copies from both ends.
#[derive(Clone, Copy, Debug, PartialEq, Eq)]
pub struct Access {
    pub at: usize,
    pub len: usize,
    pub is_store: bool,
    // Where its code lies in that of the C library's copy, if it is that.
    copied_by: Option<usize>,
}

const MOST: usize = 4096;
const TRAP: i64 = 0x100;

static FROM: AtomicUsize = AtomicUsize::new(0);
static LEN: AtomicUsize = AtomicUsize::new(0);
static COUNT: AtomicUsize = AtomicUsize::new(0);
// Of each access the place, by one number how many bytes it has and whether it is a store, and where its code lies.
static NOTED: [[AtomicUsize; 3]; MOST] = [const { [const { AtomicUsize::new(0) }; 3] }; MOST];

fn protect(access: i32) {
    // SAFETY: `trace` set these to a mapping, to which nothing has a reference.
    unsafe { libc::mprotect(FROM.load(SeqCst) as *mut _, LEN.load(SeqCst), access) };
}

// How many bytes an instruction moves from or to memory, if it is one that is known here.
fn len_of(code: &[u8]) -> Option<usize> {
    let (mut at, mut half, mut repeat) = (0, false, 0);
    while matches!(
        code[at],
        0x66 | 0xf2 | 0xf3 | 0xf0 | 0x2e | 0x36 | 0x3e | 0x26 | 0x64 | 0x65
    ) {
        half |= code[at] == 0x66;
        repeat = if code[at] & 0xfe == 0xf2 { code[at] } else { repeat };
        at += 1;
    }
    let is_wide = code[at] & 0xf8 == 0x48;
    at += usize::from(code[at] & 0xf0 == 0x40);
    let whole = if is_wide {
        8
    } else if half {
        2
    } else {
        4
    };
    match code[at] {
        0x0f => match code[at + 1] {
            0x10 | 0x11 => Some([16, 8, 4][usize::from(repeat.saturating_sub(0xf1))]),
            0x28 | 0x29 => Some(16),
            0x12 | 0x13 | 0x16 | 0x17 | 0xd6 => Some(8),
            0x6f | 0x7f => Some(if half || repeat == 0xf3 { 16 } else { 8 }),
            0x7e if repeat == 0xf3 => Some(8),
            0x6e | 0x7e => Some(if is_wide { 8 } else { 4 }),
            0xb6 | 0xbe | 0xb0 | 0xc0 => Some(1),
            0xb7 | 0xbf => Some(2),
            0xb1 | 0xc1 => Some(whole),
            _ => None,
        },
        0x80 | 0x84 | 0x86 | 0x88 | 0x8a | 0xa4 | 0xc6 | 0xf6 => Some(1),
        0x63 => Some(4),
        0x81 | 0x83 | 0x85 | 0x87 | 0x89 | 0x8b | 0xa5 | 0xc7 | 0xf7 => Some(whole),
        0x00..=0x3f if code[at] & 7 < 4 => Some(if code[at] & 1 == 0 { 1 } else { whole }),
        0xc4 => Some(if code[at + 2] & 4 == 0 { 16 } else { 32 }),
        0xc5 => Some(if code[at + 1] & 4 == 0 { 16 } else { 32 }),
        _ => None,
    }
}

extern "C" fn faulted(_signal: i32, info: *mut libc::siginfo_t, context: *mut libc::c_void) {
    // SAFETY: the system gives the handler both, and the instruction lies in memory that can be read.
    unsafe {
        let place = ((*info).si_addr() as usize).wrapping_sub(FROM.load(SeqCst));
        let count = COUNT.load(SeqCst);
        if place >= LEN.load(SeqCst) || count == MOST {
            libc::signal(libc::SIGSEGV, libc::SIG_DFL);
            return;
        }
        let registers = &mut (*context.cast::<libc::ucontext_t>()).uc_mcontext.gregs;
        let code = std::slice::from_raw_parts(registers[libc::REG_RIP as usize] as *const u8, 8);
        let len = len_of(code).unwrap_or(0);
        let is_store = registers[libc::REG_ERR as usize] as usize >> 1 & 1;
        let noted = [place, 2 * len + is_store, registers[libc::REG_RIP as usize] as usize];
        (0..3).for_each(|it| NOTED[count][it].store(noted[it], SeqCst));
        COUNT.store(count + 1, SeqCst);
        registers[libc::REG_EFL as usize] |= TRAP;
    }
    protect(libc::PROT_READ | libc::PROT_WRITE);
}

extern "C" fn stepped(_signal: i32, _info: *mut libc::siginfo_t, context: *mut libc::c_void) {
    // SAFETY: the system gives the handler its context.
    let registers = unsafe { &mut (*context.cast::<libc::ucontext_t>()).uc_mcontext.gregs };
    registers[libc::REG_EFL as usize] &= !TRAP;
    protect(libc::PROT_NONE);
}

/// Makes a call, and returns what it gives and its accesses to a mapping, in their order. One thread traces at a time.
pub fn trace<T>((from, len): (*mut u8, usize), call: impl FnOnce() -> T) -> (T, Vec<Access>) {
    FROM.store(from as usize, SeqCst);
    LEN.store(len, SeqCst);
    COUNT.store(0, SeqCst);
    type Handler = extern "C" fn(i32, *mut libc::siginfo_t, *mut libc::c_void);
    for (signal, handler) in [(libc::SIGSEGV, faulted as Handler), (libc::SIGTRAP, stepped as Handler)] {
        // SAFETY: an action is numbers, a set and a pointer, which may be 0. The handlers have the signature that
        // SA_SIGINFO asks for, and call nothing that a handler may not.
        unsafe {
            let mut action: libc::sigaction = zeroed();
            action.sa_sigaction = handler as usize;
            action.sa_flags = libc::SA_SIGINFO;
            assert_eq!(libc::sigaction(signal, &action, null_mut()), 0);
        }
    }
    protect(libc::PROT_NONE);
    let given = call();
    protect(libc::PROT_READ | libc::PROT_WRITE);
    let mut accesses: Vec<Access> = Vec::new();
    for noted in &NOTED[..COUNT.load(SeqCst)] {
        let [at, how, code] = noted.each_ref().map(|it| it.load(SeqCst));
        assert!(how > 1, "an instruction that is not known accesses {at:#x}");
        let access = Access {
            at,
            len: how / 2,
            is_store: how % 2 == 1,
            copied_by: Some(code.wrapping_sub(COPY as usize)).filter(|it| *it < COPY_LEN),
        };
        match accesses.last_mut().filter(|last| is_one_copy(last, &access)) {
            Some(last) => {
                let end = (last.at + last.len).max(at + access.len);
                last.at = last.at.min(at);
                last.len = end - last.at;
                last.copied_by = None;
            }
            None => accesses.push(access),
        }
    }
    (given, accesses)
}

// The C library's copy, and how many bytes its code has at most.
const COPY: unsafe extern "C" fn(*mut libc::c_void, *const libc::c_void, usize) -> *mut libc::c_void = libc::memcpy;
const COPY_LEN: usize = 0x800;

// For few bytes it makes two accesses.
fn is_one_copy(last: &Access, next: &Access) -> bool {
    let is_after = last
        .copied_by
        .is_some_and(|last| next.copied_by.is_some_and(|next| next > last));
    let touches = next.at <= last.at + last.len && last.at <= next.at + next.len;
    is_after && touches && last.is_store == next.is_store
}
