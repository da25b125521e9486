//! One in 97 allocations of the library is refused: it takes these functions of the program where that has them.

mod common;

use common::{run, Broker};
use std::ffi::c_void;
use std::sync::atomic::{AtomicUsize, Ordering};

const EACH: usize = 97;

static COUNT: AtomicUsize = AtomicUsize::new(0);
static REFUSED: AtomicUsize = AtomicUsize::new(0);

unsafe extern "C" {
    fn malloc(size: usize) -> *mut c_void;
    fn realloc(old: *mut c_void, size: usize) -> *mut c_void;
    fn free(at: *mut c_void);
}

/// Where the memory is. A refusal has a place too, which is not used.
#[repr(C)]
pub struct Tried {
    done: bool,
    at: *mut c_void,
}

impl Tried {
    fn of(allocate: impl Fn() -> *mut c_void) -> Tried {
        let count = COUNT.fetch_add(1, Ordering::Relaxed);
        let (round, place) = (count / EACH, count % EACH);
        // Were these evenly spaced, what is tried again would meet the refusal at the same place again and again.
        let is_refused = place == (41 * round * round + EACH - 1) % EACH;
        REFUSED.fetch_add(usize::from(is_refused), Ordering::Relaxed);
        let at = if is_refused { std::ptr::null_mut() } else { allocate() };
        match at.is_null() {
            true => Tried { done: false, at: std::ptr::dangling_mut() },
            false => Tried { done: true, at },
        }
    }
}

#[no_mangle]
pub extern "C" fn rattle_alloc(size: usize, align: usize) -> Tried {
    // SAFETY: any size may be asked for.
    Tried::of(|| unsafe { malloc(if size > 0 { size } else { align }) })
}

/// # Safety
///
/// `old` is of one of these functions, and not freed.
#[no_mangle]
pub unsafe extern "C" fn rattle_realloc(old: *mut c_void, _kept: usize, size: usize, align: usize) -> Tried {
    Tried::of(|| unsafe { realloc(old, if size > 0 { size } else { align }) })
}

/// # Safety
///
/// `at` is of one of these functions, and not freed.
#[no_mangle]
pub unsafe extern "C" fn rattle_dealloc(at: *mut c_void) {
    unsafe { free(at) }
}

/// A build may be refused too.
fn run_refused(partitions: u32, nodes: usize) {
    let broker = Broker::start(partitions, nodes, "");
    let before = REFUSED.load(Ordering::Relaxed);
    let producer = (0..10).find_map(|_| broker.builder().build().ok()).expect("a producer is built");
    run(broker, producer);
    assert!(REFUSED.load(Ordering::Relaxed) > before + 100, "the library takes its memory elsewhere");
}

#[test]
fn one_node_with_refused_memory() {
    run_refused(3, 1);
}

#[test]
fn three_nodes_with_refused_memory() {
    run_refused(7, 3);
}
