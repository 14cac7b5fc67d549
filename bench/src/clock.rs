// CPU time, in seconds: of the calling thread, and of the whole process.

#[repr(C)]
struct Time {
    seconds: i64,
    nanoseconds: i64,
}

extern "C" {
    fn clock_gettime(clock: i32, time: *mut Time) -> i32;
}

// the numbers that Linux gives these clocks
const PROCESS: i32 = 2;
const THREAD: i32 = 3;

fn read(clock: i32) -> f64 {
    let mut time = Time {
        seconds: 0,
        nanoseconds: 0,
    };
    let status = unsafe { clock_gettime(clock, &mut time) };
    assert_eq!(status, 0, "the clock can be read");
    time.seconds as f64 + time.nanoseconds as f64 * 1e-9
}

pub fn thread() -> f64 {
    read(THREAD)
}

pub fn process() -> f64 {
    read(PROCESS)
}
