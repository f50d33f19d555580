//! Counts its own runs in a heap, in its own process.
//!
//!     rustc -O -L clients/lib/build -l static=stable_heap clients/lib/count.rs
//!     ./count FOLDER
//!
//! Field 0 of the root is the number of runs.
use std::ffi::{CString, c_char, c_int, c_uint};
use std::os::raw::c_void;
use std::ptr;

#[repr(C)]
struct HeapError {
    result: c_int,
    numbers: [u64; 3],
    status: c_int,
    text: [c_char; 160],
}

#[repr(C)]
#[derive(Clone, Copy)]
struct Object {
    handle: c_int,
}

#[repr(C)]
struct Value {
    kind: c_int,
    number: u64,
    object: Object,
}

extern "C" {
    fn sh_open_here(folder: *const c_char, pages: c_uint, log_bytes: c_uint, error: *mut HeapError) -> *mut c_void;
    fn sh_close(heap: *mut c_void);
    fn sh_begin(heap: *mut c_void, transaction: *mut *mut c_void) -> c_int;
    fn sh_commit(transaction: *mut c_void, durable: bool) -> c_int;
    fn sh_root(transaction: *mut c_void, root: *mut Object) -> c_int;
    fn sh_get(transaction: *mut c_void, object: Object, field: c_uint, value: *mut Value) -> c_int;
    fn sh_put(transaction: *mut c_void, object: Object, field: c_uint, number: u64) -> c_int;
}

/// Adds one to the number of runs, and gives it once it is on the disk.
fn count(heap: *mut c_void) -> Result<u64, c_int> {
    let (mut transaction, mut root) = (ptr::null_mut(), Object { handle: 0 });
    let mut value = Value { kind: 0, number: 0, object: root };
    unsafe {
        if sh_begin(heap, &mut transaction) != 0 {
            return Err(-1);
        }
        sh_root(transaction, &mut root);
        sh_get(transaction, root, 0, &mut value);
        sh_put(transaction, root, 0, value.number + 1);
        // (it gives the first refusal of the transaction)
        match sh_commit(transaction, true) {
            0 => Ok(value.number + 1),
            refused => Err(refused),
        }
    }
}

fn main() {
    let folder = CString::new(std::env::args().nth(1).expect("count FOLDER")).expect("a path");
    let mut error = HeapError { result: 0, numbers: [0; 3], status: 0, text: [0; 160] };
    let heap = unsafe { sh_open_here(folder.as_ptr(), 4, 65_536, &mut error) };
    if heap.is_null() {
        std::process::exit(error.status);
    }
    match count(heap) {
        Ok(runs) => println!("run {runs}"),
        Err(refused) => println!("refused {refused}"),
    }
    unsafe { sh_close(heap) };
}
