//! Processor time, user and system together, in seconds.

/// `struct rusage` of Linux on 64 bits: two times, then fourteen words that are not read here.
#[repr(C)]
struct Usage {
    user: Time,
    system: Time,
    rest: [i64; 14],
}

#[repr(C)]
struct Time {
    seconds: i64,
    microseconds: i64,
}

extern "C" {
    fn getrusage(who: i32, usage: *mut Usage) -> i32;
}

impl Time {
    fn seconds(&self) -> f64 {
        self.seconds as f64 + self.microseconds as f64 / 1e6
    }
}

fn used(who: i32) -> f64 {
    let zero = || Time { seconds: 0, microseconds: 0 };
    let mut usage = Usage { user: zero(), system: zero(), rest: [0; 14] };
    // SAFETY: `usage` is a live `struct rusage`, and the callee keeps no pointer to it.
    assert_eq!(unsafe { getrusage(who, &mut usage) }, 0);
    usage.user.seconds() + usage.system.seconds()
}

/// Of this process so far.
pub fn own() -> f64 {
    used(0)
}

/// Of the children that have been waited for.
pub fn children() -> f64 {
    used(-1)
}
