//! A connection that finds no memory is refused by name. This is the only test of its process, which runs out of
//! memory.

use std::ffi::c_int;
use std::fs;
use std::ptr::null_mut;
use vm_memory_proved::vhost_user::{Backend, Offer, Refusal};

unsafe extern "C" {
    fn setrlimit(resource: c_int, limits: *const [u64; 2]) -> c_int;
    fn malloc(size: usize) -> *mut u8;
    fn free(at: *mut u8);
}

// The number of the limit on addresses, and no limit.
const ADDRESSES: c_int = 9;
const NONE: u64 = u64::MAX;

// Blocks of memory, each of which has the address of the block before it.
struct Blocks {
    last: *mut u8,
}

impl Blocks {
    // Takes blocks of a size until there is no memory for one more.
    fn take_all(&mut self, size: usize) {
        loop {
            // SAFETY: the declaration fits the function. The block is aligned for a pointer and has room for it.
            unsafe {
                let block = malloc(size);
                if block.is_null() {
                    return;
                }
                block.cast::<*mut u8>().write(self.last);
                self.last = block;
            }
        }
    }

    // Frees the block that was taken last. False if there is none.
    fn free_one(&mut self) -> bool {
        if self.last.is_null() {
            return false;
        }
        // SAFETY: the block is this one's, has the address of the block before it, and is freed once.
        unsafe {
            let before = self.last.cast::<*mut u8>().read();
            free(self.last);
            self.last = before;
        }
        true
    }
}

fn limit(addresses: u64) {
    // SAFETY: the declaration fits the function, which reads two numbers.
    assert_eq!(unsafe { setrlimit(ADDRESSES, &[addresses, NONE]) }, 0);
}

#[test]
fn a_connection_without_memory_is_refused_by_name() {
    let offer = Offer {
        queues: 256,
        max_queue_size: 1024,
        ..Offer::default()
    };
    let make = || Backend::new(&offer, &[1; 256]).map(drop);
    assert_eq!(make(), Ok(()));
    let words = fs::read_to_string("/proc/self/statm").unwrap();
    let pages: u64 = words.split(' ').next().unwrap().parse().unwrap();
    let mut blocks = Blocks { last: null_mut() };
    limit(4096 * pages + (1 << 20));
    for size in [1 << 20, 1 << 16, 1 << 12, 1 << 8, 1 << 6, 1 << 4] {
        blocks.take_all(size);
    }
    // Nothing below allocates before the limit is gone.
    let (mut refused, mut others) = (0, 0);
    let mut made = make();
    while made != Ok(()) {
        match made {
            Err(Refusal::Memory) => refused += 1,
            _ => others += 1,
        }
        if !blocks.free_one() {
            break;
        }
        made = make();
    }
    let last = make();
    while blocks.free_one() {}
    limit(NONE);
    assert_eq!((made, last, others), (Ok(()), Ok(()), 0));
    assert!(refused > 0);
    println!("{refused} connections were refused");
}
