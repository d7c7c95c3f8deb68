//! What a call of the product takes of its caller's stack: it runs on a painted stack of its own.
use crate::cases;
use crate::{perform, product, room, work, Runs, Who, Work, NAMES};
use std::ffi::c_void;

const SIZE: usize = 1 << 20;
const PAINT: u8 = 0xA5;

#[repr(C, align(16))]
struct Attributes([u8; 64]);

extern "C" {
    fn pthread_attr_init(a: *mut Attributes) -> i32;
    fn pthread_attr_setstack(a: *mut Attributes, stack: *mut c_void, size: usize) -> i32;
    fn pthread_create(id: *mut usize, a: *const Attributes, f: extern "C" fn(*mut c_void) -> *mut c_void, arg: *mut c_void) -> i32;
    fn pthread_join(id: usize, out: *mut *mut c_void) -> i32;
}

#[repr(C, align(4096))]
struct Stack([u8; SIZE]);

/// A call of the product: one of the cases, or reading what it is made of.
#[derive(Clone, Copy)]
enum Call<'a> {
    Make(&'a Work),
    ReadSchedule(&'a [u8]),
    ReadTable(&'a [u8]),
}

/// The product's call alone: a function that can make another's too has a larger frame.
#[inline(never)]
fn call(w: &Work, out: &mut [u8]) {
    match w {
        Work::Compile(f) => product::compile(f, out).is_ok(),
        Work::Size(f) => product::size(f).is_ok(),
        Work::Rules(r) => product::rule_run(&r.file, &r.start, &r.events, out).is_ok(),
        Work::Table(t, r) => product::table_run(t, &r.start, &r.events, out).is_ok(),
        Work::Practice { seed, count } => product::practice(*seed, *count, out).is_ok(),
    };
}

/// The call to make, or none, and its buffer.
struct Task<'a>(Option<Call<'a>>, &'a mut [u8]);

extern "C" fn enter(task: *mut c_void) -> *mut c_void {
    // SAFETY: `taken` hands a task that lives until the thread is joined.
    let task = unsafe { &mut *(task as *mut Task) };
    match task.0 {
        Some(Call::Make(w)) => call(w, task.1),
        Some(Call::ReadSchedule(f)) => assert_eq!(product::read_schedule(f), 0),
        Some(Call::ReadTable(t)) => assert_eq!(product::read_table(t), 0),
        None => {}
    }
    std::ptr::null_mut()
}

/// Bytes of the stack that the thread wrote.
fn taken(c: Option<Call>, out: &mut [u8]) -> usize {
    // SAFETY: a Stack is bytes.
    let mut stack: Box<Stack> = unsafe { Box::new_uninit().assume_init() };
    stack.0.fill(PAINT);
    let mut task = Task(c, out);
    let (mut a, mut id) = (Attributes([0; 64]), 0);
    // SAFETY: pthread_attr_t has 56 bytes on x86-64 Linux; stack and task outlive the thread.
    unsafe {
        assert_eq!(pthread_attr_init(&mut a), 0);
        assert_eq!(pthread_attr_setstack(&mut a, stack.0.as_mut_ptr().cast(), SIZE), 0);
        assert_eq!(pthread_create(&mut id, &a, enter, (&raw mut task).cast()), 0);
        assert_eq!(pthread_join(id, std::ptr::null_mut()), 0);
    }
    SIZE - stack.0.iter().position(|b| *b != PAINT).unwrap_or(SIZE)
}

/// The most that each kind of call takes: over the cases, nests of 63 of each kind, and expressions of depth 16.
pub fn measure() {
    let mut works: Vec<Work> = NAMES.iter().map(|n| work(n)).collect();
    for file in cases::deep() {
        let runs = || Runs { file: file.clone(), start: vec![0; 4], events: cases::picks() };
        works.push(Work::Compile(file.clone()));
        works.push(Work::Size(file.clone()));
        works.push(Work::Table(crate::plain::whole_table(&file).expect("a table"), runs()));
        works.push(Work::Rules(runs()));
    }
    let own = taken(None, &mut []);
    let mut most = [0; 7];
    for w in &works {
        let (kind, read) = match w {
            Work::Compile(_) => (0, None),
            Work::Rules(r) => (1, Some((5, Call::ReadSchedule(&r.file)))),
            Work::Table(t, _) => (2, Some((6, Call::ReadTable(t)))),
            Work::Size(_) => (3, None),
            Work::Practice { .. } => (4, None),
        };
        let mut out = vec![0; room(w)];
        assert!(matches!(perform(Who::Product, w, &mut out)[0], 0 | 13), "a case that is refused");
        for (kind, c) in [Some((kind, Call::Make(w))), read].into_iter().flatten() {
            most[kind] = most[kind].max(taken(Some(c), &mut out) - own);
        }
    }
    let names = [
        "compiling",
        "a run by the rules",
        "a run of a table",
        "the size of a schedule",
        "practice events",
        "reading a schedule",
        "reading a table",
    ];
    for (name, n) in names.iter().zip(most) {
        println!("{name}: {n} bytes of stack");
    }
}
