//! The proved exports and the original Rust, asked the same: what a fuzzer calls with its bytes, and the first difference
//! ends the process.

mod call;
mod check;
mod expected;
#[rustfmt::skip]
mod ffi;
mod input;
mod lent;
mod proved;
mod seeds;

use std::cell::RefCell;

use check::Checker;

thread_local! {
    static CHECKER: RefCell<Checker> = RefCell::new(Checker::new());
}

/// Called once before all inputs. With a folder in `FUZZ_SEEDS` it makes the inputs to start from there, of the requests
/// on standard input, and ends.
#[no_mangle]
pub extern "C" fn LLVMFuzzerInitialize(_count: *mut i32, _words: *mut *mut *mut u8) -> i32 {
    if let Some(folder) = std::env::var_os("FUZZ_SEEDS") {
        let made = seeds::write_seeds(std::io::stdin().lock(), folder.as_ref());
        match made {
            Ok(count) => println!("seeds: {count}"),
            Err(error) => {
                eprintln!("seeds: {error}");
                std::process::exit(1);
            }
        }
        std::process::exit(0);
    }
    0
}

/// Called with each input.
///
/// # Safety
/// `data` has `size` bytes, as the fuzzer promises.
#[no_mangle]
pub unsafe extern "C" fn LLVMFuzzerTestOneInput(data: *const u8, size: usize) -> i32 {
    let bytes = if size == 0 { &[] } else { std::slice::from_raw_parts(data, size) };
    let (call, room) = input::decode(bytes);
    CHECKER.with_borrow_mut(|checker| checker.check(&call, room));
    0
}
