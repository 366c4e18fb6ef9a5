//! What comes of a graph whose threads cannot all be started. It limits the memory of its process, so it is alone in it.
#![cfg(target_os = "linux")]

use std::sync::Arc;
use std::time::Duration;
use verified_disruptor::{Builder, Fault};

const ADDRESSES: i32 = 9;
const PAGE: u64 = 4096;

extern "C" {
    fn getrlimit(of: i32, limit: *mut [u64; 2]) -> i32;
    fn setrlimit(of: i32, limit: *const [u64; 2]) -> i32;
}

/// Makes a call with so many bytes of addresses more than there are.
fn with_few<R>(more: u64, call: impl FnOnce() -> R) -> R {
    let used = std::fs::read_to_string("/proc/self/statm").unwrap();
    let used: u64 = used.split_whitespace().next().unwrap().parse().unwrap();
    let mut before = [0; 2];
    // SAFETY: the two numbers of a limit lie there.
    assert_eq!(unsafe { getrlimit(ADDRESSES, &mut before) }, 0);
    // SAFETY: the same.
    assert_eq!(unsafe { setrlimit(ADDRESSES, &[used * PAGE + more, before[1]]) }, 0);
    let made = call();
    // SAFETY: the same.
    assert_eq!(unsafe { setrlimit(ADDRESSES, &before) }, 0);
    made
}

fn graph(own: &Arc<()>) -> Builder<u64> {
    (0..16).fold(Builder::new(4, || 0), |graph, k| {
        let own = Arc::clone(own);
        // (it begins late, so that it runs still where nobody waits for it)
        let make = move || (std::thread::sleep(Duration::from_millis(100)), own);
        graph.handle_with(&k.to_string(), make, |_, _, _, _| ())
    })
}

#[test]
fn where_a_thread_cannot_be_started_the_others_have_ended() {
    let own = Arc::new(());
    // (there is room for the stacks of some threads, of two megabytes each)
    let (one, several) = (graph(&own), graph(&own));
    let one = with_few(9 << 20, || one.build()).err();
    assert!(matches!(one, Some(Fault::Thread(_))), "{one:?}");
    let several = with_few(9 << 20, || several.build_several(2)).err();
    assert!(matches!(several, Some(Fault::Thread(_))), "{several:?}");
    assert_eq!(Arc::strong_count(&own), 1);
}
