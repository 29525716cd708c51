//! How many bytes of stack a call of the library uses: it runs in a thread whose stack is painted first.

use crate::bars::Bar;
use crate::book::{CLASSES, ROW_LIMIT};
use crate::cases;
use crate::library::{self, COUNTS_BYTES, INPUT_LIMIT, WORK_BYTES};
use crate::plans::{self, Names};
use std::alloc::{alloc, dealloc, handle_alloc_error, Layout};
use std::ffi::c_void;
use std::hint::black_box;
use std::ptr;

const STACK_BYTES: usize = 1 << 20;
const PAINT: u8 = 0xA5;

/// Room for a pthread_attr_t, which is smaller.
#[repr(C, align(16))]
struct Attributes([u8; 256]);

extern "C" {
    fn pthread_attr_init(attributes: *mut Attributes) -> i32;
    fn pthread_attr_setstack(attributes: *mut Attributes, stack: *mut c_void, bytes: usize) -> i32;
    fn pthread_create(
        thread: *mut usize,
        attributes: *const Attributes,
        run: extern "C" fn(*mut c_void) -> *mut c_void,
        argument: *mut c_void,
    ) -> i32;
    fn pthread_join(thread: usize, result: *mut *mut c_void) -> i32;
}

/// Each call with its bar and the bytes of stack that it uses, without those of an empty thread.
pub fn calls() -> Vec<(Bar, String, usize)> {
    let (mut work, mut out, mut counts) = (vec![0; WORK_BYTES], vec![0; INPUT_LIMIT], vec![0; COUNTS_BYTES]);
    let empty = used(&mut || ());
    let table = cases::chain_table();
    let mut calls = Vec::new();
    for class in CLASSES {
        for (name, book) in [("nearly one name", cases::nearly_one_name()), ("2 names", cases::random_rows(2))] {
            let book = book.with_class(class).bytes();
            let case = format!("{}, {name}", class.label());
            let bytes = used(&mut || {
                black_box(library::build(&book, &mut work, &mut out));
            });
            calls.push((Bar::Stack, format!("build {case}"), bytes - empty));
            let counting = used(&mut || {
                black_box(library::build_counted(&book, &mut work, &mut out, &mut counts));
            });
            calls.push((Bar::Stack, format!("build with counts {case}"), counting - empty));
            let listing = used(&mut || {
                black_box(library::list(&book, &mut work, &mut out));
            });
            calls.push((Bar::ListingStack, format!("list {case}"), listing - empty));
        }
    }
    let rewriting = used(&mut || {
        black_box(library::rewrite(&table, &mut work, &mut out));
    });
    calls.push((Bar::Stack, "rewrite, 512 states".to_string(), rewriting - empty));
    let (zigzag, way) = cases::zigzag(cases::Filling::Behind);
    for (name, table, row) in [("512 states", table, vec![0; ROW_LIMIT]), ("zigzag", zigzag, way)] {
        let walking = used(&mut || {
            black_box(library::walk(&table, &row, &mut work));
        });
        calls.push((Bar::Stack, format!("walk of 40, {name}"), walking - empty));
    }
    for (name, plan) in [
        ("plan of a clinic", plans::clinic()),
        ("tag-dense", plans::tag_dense(Names::Letters(3))),
        ("nested", plans::nested(Names::Letters(3))),
    ] {
        let list = plan.list();
        let reading = used(&mut || {
            black_box(library::read_rows(&plan.bytes, &list, plan.chosen, &mut work, &mut out));
        });
        calls.push((Bar::ReadingStack, format!("read rows, {name}"), reading - empty));
    }
    calls
}

extern "C" fn run(argument: *mut c_void) -> *mut c_void {
    // SAFETY: `in_thread` passes a pointer to such a reference, and waits for the thread
    let call = unsafe { &mut *argument.cast::<&mut dyn FnMut()>() };
    call();
    ptr::null_mut()
}

/// How many bytes of its stack a thread uses that makes this call.
fn used(call: &mut dyn FnMut()) -> usize {
    let layout = Layout::from_size_align(STACK_BYTES, 4096).expect("a size and an alignment that are powers of two");
    // SAFETY: the layout is not of size 0; every byte is written before any is read; freed once, with the same layout
    unsafe {
        let stack = alloc(layout);
        if stack.is_null() {
            handle_alloc_error(layout);
        }
        ptr::write_bytes(stack, PAINT, STACK_BYTES);
        in_thread(stack, call);
        let painted = std::slice::from_raw_parts(stack, STACK_BYTES).iter().take_while(|&&byte| byte == PAINT).count();
        dealloc(stack, layout);
        STACK_BYTES - painted
    }
}

/// Makes the call in a thread with this stack.
///
/// # Safety
/// `stack` is of STACK_BYTES, and nothing else uses it.
unsafe fn in_thread(stack: *mut u8, mut call: &mut dyn FnMut()) {
    let mut attributes = Attributes([0; 256]);
    let mut thread = 0;
    let argument = ptr::from_mut(&mut call).cast();
    let failed = pthread_attr_init(&mut attributes) != 0
        || pthread_attr_setstack(&mut attributes, stack.cast(), STACK_BYTES) != 0
        || pthread_create(&mut thread, &attributes, run, argument) != 0
        || pthread_join(thread, ptr::null_mut()) != 0;
    assert!(!failed, "a thread with a stack of {STACK_BYTES} bytes cannot be run");
}
