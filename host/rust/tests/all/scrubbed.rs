//! Work on a stack of its own: what it answers, and how it ends.

use std::panic::{catch_unwind, AssertUnwindSafe};
use std::thread;

use tg18::{scrubbed, Memories, Refusal, Unit, SCRUBBED_BYTES};

#[test]
fn it_answers_what_the_work_does() {
    let (mut unit, mut memories) = (Unit::fresh(), Memories::new());
    let long: String = "a string that is on the heap".into();
    let answer = scrubbed(|| {
        unit.write(&mut memories, 0xF800_0000, 4, 7)?;
        unit.read(&memories, 0xF800_0000, 4).map(|value| (value, long))
    });
    assert_eq!(answer, Ok(Ok((7, "a string that is on the heap".into()))));
    assert_eq!(scrubbed(|| unit.read(&memories, 0, 3)), Ok(Err(Refusal::BadSize)));
}

#[test]
fn it_is_another_stack() {
    let here = 0u8;
    let there = scrubbed(|| {
        let there = 0u8;
        std::ptr::from_ref(&there) as usize
    });
    let apart = (std::ptr::from_ref(&here) as usize).abs_diff(there.unwrap());
    assert!(apart > SCRUBBED_BYTES);
}

#[test]
fn scrubbed_work_may_be_in_scrubbed_work() {
    assert_eq!(scrubbed(|| scrubbed(|| 5)), Ok(Ok(5)));
}

/// It goes on at the caller, as it was, and the next one works.
#[test]
fn a_panic_goes_on_behind_it() {
    let mut done = 0;
    let ended = catch_unwind(AssertUnwindSafe(|| {
        let _ = scrubbed(|| {
            done += 1;
            std::panic::panic_any(String::from("meant"))
        });
    }));
    assert_eq!(ended.unwrap_err().downcast_ref::<String>().unwrap(), "meant");
    assert_eq!(done, 1);
    assert_eq!(scrubbed(|| done + 1), Ok(2));
}

#[test]
fn what_the_work_has_is_dropped_once() {
    struct Counted<'a>(&'a std::cell::Cell<u32>);
    impl Drop for Counted<'_> {
        fn drop(&mut self) {
            self.0.set(self.0.get() + 1);
        }
    }
    let drops = std::cell::Cell::new(0);
    let counted = Counted(&drops);
    let back = scrubbed(move || counted).unwrap();
    assert_eq!(drops.get(), 0);
    drop(back);
    assert_eq!(drops.get(), 1);
}

#[test]
fn in_many_threads_at_once() {
    let threads: Vec<_> =
        (0..8u32).map(|n| thread::spawn(move || (0..50).all(|m| scrubbed(|| n + m) == Ok(n + m)))).collect();
    assert!(threads.into_iter().all(|thread| thread.join().unwrap()));
}
