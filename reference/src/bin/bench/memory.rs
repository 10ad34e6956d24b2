//! The memory that a call needs: the heap by an allocator that counts, the stack by one that is painted before the call.
use crate::calls::{Port, rust_build, rust_create, rust_step};
use crate::networks::Case;
use pywr_reference::generate;
use pywr_reference::solver::Altered;
use pywr_reference::timed::{network_reader, step_reader::StepReader};
use std::alloc::{GlobalAlloc, Layout, System};
use std::arch::asm;
use std::sync::atomic::{AtomicBool, AtomicIsize, Ordering::Relaxed};

/// The system's allocator. It counts the bytes that are asked for while COUNTING is set, which no timed call does.
struct Counting;

#[global_allocator]
static ALLOCATOR: Counting = Counting;
static COUNTING: AtomicBool = AtomicBool::new(false);
static LIVE: AtomicIsize = AtomicIsize::new(0);
static PEAK: AtomicIsize = AtomicIsize::new(0);

fn count(bytes: isize) {
    if COUNTING.load(Relaxed) {
        let live = LIVE.fetch_add(bytes, Relaxed) + bytes;
        PEAK.fetch_max(live, Relaxed);
    }
}

unsafe impl GlobalAlloc for Counting {
    unsafe fn alloc(&self, layout: Layout) -> *mut u8 {
        count(layout.size() as isize);
        unsafe { System.alloc(layout) }
    }

    unsafe fn alloc_zeroed(&self, layout: Layout) -> *mut u8 {
        count(layout.size() as isize);
        unsafe { System.alloc_zeroed(layout) }
    }

    unsafe fn realloc(&self, run: *mut u8, layout: Layout, size: usize) -> *mut u8 {
        count(size as isize - layout.size() as isize);
        unsafe { System.realloc(run, layout, size) }
    }

    unsafe fn dealloc(&self, run: *mut u8, layout: Layout) {
        count(-(layout.size() as isize));
        unsafe { System.dealloc(run, layout) }
    }
}

/// Bytes of the heap: the most that a call holds at one time, and what its result holds after it.
#[derive(Debug, Clone, Copy)]
pub struct Heap {
    pub peak: isize,
    pub held: isize,
}

pub fn heap<T>(call: impl FnOnce() -> T) -> Heap {
    LIVE.store(0, Relaxed);
    PEAK.store(0, Relaxed);
    COUNTING.store(true, Relaxed);
    let result = call();
    COUNTING.store(false, Relaxed);
    let heap = Heap { peak: PEAK.load(Relaxed), held: LIVE.load(Relaxed) };
    drop(result);
    heap
}

const STACK: usize = 1 << 20;
const PAINT: u64 = 0x5bd1_e995_9d1c_4e37;

/// How deep a call writes on its stack, in bytes.
pub fn stack<F: FnMut()>(mut call: F) -> usize {
    extern "C" fn enter<F: FnMut()>(call: *mut F) {
        unsafe { (*call)() }
    }
    let mut painted = vec![[PAINT; 2]; STACK / 16];
    let words = painted.as_flattened_mut();
    let start = words.as_mut_ptr() as usize;
    let top = (start + STACK) & !15;
    // The call runs with the painted run as its stack; r12 keeps the true one.
    unsafe {
        asm!(
            "mov r12, rsp",
            "mov rsp, {top}",
            "call {enter}",
            "mov rsp, r12",
            top = in(reg) top,
            enter = in(reg) enter::<F> as extern "C" fn(*mut F) as usize,
            in("rdi") &raw mut call,
            out("r12") _,
            clobber_abi("C"),
        );
    }
    let kept = words.iter().take_while(|word| **word == PAINT).count();
    assert!(kept > 0, "a call needs over {STACK} bytes of stack");
    top - start - 8 * kept
}

/// The port's runs are the caller's, and it has no heap. The Rust's heap is that of its solver, and of the network and the state that a step
/// reads too.
pub fn tell(case: &Case) {
    let mut port = Port::new();
    let s = &port.store;
    let doubles = [&s.col_lower, &s.col_upper, &s.col_obj_coef, &s.row_lower, &s.row_upper, &s.elements];
    let store = doubles.map(|run| size_of_val(&run[..])).iter().sum::<usize>()
        + [&s.columns, &s.shape].map(|run| size_of_val(&run[..])).iter().sum::<usize>()
        + size_of_val(&s.row_starts[..]);
    let work = [size_of_val(&port.words[..]) + size_of_val(&port.numbers[..]), size_of_val(&port.work[..])];
    let [build, step] = [stack(|| port.build(&case.network)), stack(|| port.step(&case.step))];
    println!("  bytes  port  store {store}; build: work {}, stack {build}; step: work {}, stack {step}", work[0], work[1]);

    let network = network_reader::read(&case.network).unwrap();
    let held = heap(|| rust_create::<Altered>(&network));
    // A network finds its flow order in its first step and keeps it.
    let with_network = heap(|| {
        let ((network, mut solver), mut reader) = (rust_build(&case.network), StepReader::new(&case.file));
        rust_step(&network, &mut solver, &mut reader, &case.step);
        (network, solver, reader)
    });
    let build = heap(|| rust_build::<Altered>(&case.network));
    let (mut solver, mut reader) = (rust_create(&network), StepReader::new(&case.file));
    rust_step(&network, &mut solver, &mut reader, &case.step);
    let step = heap(|| rust_step(&network, &mut solver, &mut reader, &case.step));
    print!("         Rust  solver {}, with the network and the state {}; ", held.held, with_network.held);
    let stacks = [
        stack(|| drop(rust_build::<Altered>(&case.network))),
        stack(|| rust_step(&network, &mut solver, &mut reader, &case.step)),
    ];
    print!("build: heap {} (builder.rs alone {}), stack {}; ", build.peak, held.peak, stacks[0]);
    println!("step: heap {}, stack {}", step.peak, stacks[1]);
}

/// The deepest that the port's builds and steps write on their stack over the generator's networks, refused ones too.
pub fn tell_deepest(seed: u64, count: u64) {
    let Port { mut store, mut words, mut numbers, mut work } = Port::new();
    let (mut builds, mut steps) = (Vec::new(), Vec::new());
    for case in (0..count).map(|index| generate::case(seed, index)) {
        builds.push(stack(|| _ = store.build(&case.network, pywr::Sentinel::Infinity, &mut words, &mut numbers)));
        steps.extend(case.steps.iter().map(|step| stack(|| _ = store.step(step, &mut work))));
    }
    for (name, depths) in [("builds", builds), ("steps", steps)] {
        println!("{name}: {}, stack at most {}", depths.len(), depths.iter().max().unwrap_or(&0));
    }
}
