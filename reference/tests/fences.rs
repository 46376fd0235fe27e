//! The fences that every lent slice stands against: a touch outside ends the program.

use reference::fence::{Fenced, Side};
use std::os::unix::process::ExitStatusExt;
use std::process::Command;

const TOUCH: &str = "TOUCH_THE_FENCE";

/// Reads or writes one byte beside a slice against a fence.
fn touch(what: &str) {
    let side = if what.contains("behind") {
        Side::End
    } else {
        Side::Start
    };
    let mut fenced = Fenced::new(side, 100);
    let slice = fenced.bytes(100);
    slice.fill(1);
    unsafe {
        let at = match side {
            Side::End => slice.as_mut_ptr().add(100),
            Side::Start => slice.as_mut_ptr().sub(1),
        };
        match what.contains("read") {
            true => assert_eq!(at.read_volatile(), 1),
            false => at.write_volatile(1),
        }
    }
}

#[test]
fn a_touch_outside_ends_the_program() {
    if let Ok(what) = std::env::var(TOUCH) {
        return touch(&what);
    }
    for what in [
        "read behind",
        "write behind",
        "read in front",
        "write in front",
    ] {
        let ended = Command::new(std::env::current_exe().unwrap())
            .env(TOUCH, what)
            .output()
            .expect("this test starts again");
        const SEGMENTATION_FAULT: i32 = 11;
        let signal = ended.status.signal();
        assert_eq!(signal, Some(SEGMENTATION_FAULT), "{what}: {ended:?}");
    }
}
