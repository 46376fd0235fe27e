//! M4RI and PARI, through libraries.c, where they are installed (scripts/bench.sh).

use std::ffi::{c_char, c_long, c_void, CString};

extern "C" {
    fn dlopen(path: *const c_char, mode: i32) -> *mut c_void;
    fn dlsym(handle: *mut c_void, name: *const c_char) -> *mut c_void;
}

/// Gives how many combinations are even with all the columns.
pub type Kernel = extern "C" fn(*const u64, usize) -> c_long;

fn load(library: &str, name: &str) -> Option<Kernel> {
    let folder = std::env::var("BENCH_LIBRARIES").unwrap_or_else(|_| "target/bench".to_string());
    let path = CString::new(format!("{folder}/lib{library}.so")).unwrap();
    let name = CString::new(name).unwrap();
    unsafe {
        let handle = dlopen(path.as_ptr(), 2);
        if handle.is_null() {
            return None;
        }
        let symbol = dlsym(handle, name.as_ptr());
        let there = !symbol.is_null();
        there.then(|| std::mem::transmute::<*mut c_void, Kernel>(symbol))
    }
}

/// Each library by its own call, and by the least that it can be made to do.
pub fn kernels() -> Vec<(&'static str, Kernel)> {
    let calls = [
        ("M4RI", load("bench_m4ri", "bench_m4ri")),
        ("M4RI, rank only", load("bench_m4ri", "bench_m4ri_careful")),
        ("PARI", load("bench_pari", "bench_pari")),
        ("PARI, rank only", load("bench_pari", "bench_pari_careful")),
    ];
    let installed = calls.into_iter().filter_map(|(name, k)| Some((name, k?)));
    installed.collect()
}
