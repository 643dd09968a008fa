//! The same check from Rust: `./test PROGRAM`. A mutator loads the only reference to an object, and overwrites the field
//! that had it; once with a barrier, and once without: then the `settle` after the store is refused.
use std::ffi::{CStr, CString, c_char, c_int, c_uint, c_ulong};

/// `nmgc_judge` of `nmgc_check.h`, which only the calls look into.
#[repr(C)]
struct Judge {
    socket: c_int,
    process: c_int,
    is_refused: c_int,
    line: c_ulong,
    used: usize,
    text: [u8; 32768],
    told: [u8; 512],
}

/// `nmgc_log`: what a thread's barrier has remembered.
#[repr(C)]
struct Log {
    count: u32,
    lost: u32,
    names: [u64; 62],
}

unsafe extern "C" {
    fn nmgc_begin(judge: *mut Judge, program: *const c_char, mutators: c_uint) -> c_int;
    fn nmgc_command(judge: *mut Judge, format: *const c_char, ...) -> c_int;
    fn nmgc_mark(judge: *mut Judge) -> c_int;
    fn nmgc_flush(judge: *mut Judge, log: *mut Log) -> c_int;
    fn nmgc_settle(judge: *mut Judge, mutator: c_uint) -> c_int;
    fn nmgc_close(judge: *mut Judge) -> c_int;
    fn nmgc_marked(judge: *mut Judge, names: *const u64, count: usize) -> c_int;
    fn nmgc_end(judge: *mut Judge) -> c_int;
}

impl Log {
    fn new() -> Self {
        Log { count: 0, lost: 0, names: [0; 62] }
    }

    /// Within a barrier. Appends, and does nothing else.
    fn remember(&mut self, name: u64) {
        match self.names.get_mut(self.count as usize) {
            Some(place) => {
                *place = name;
                self.count += 1;
            }
            None => self.lost += 1,
        }
    }
}

fn name(maker: u64, serial: u64) -> u64 {
    maker << 32 | serial
}

/// A judge that has been told how a heap was made: `0.1` holds the only reference to `0.0`, and marking has begun.
fn begun(program: &CStr) -> Box<Judge> {
    let mut judge = Box::new(Judge {
        socket: -1,
        process: 0,
        is_refused: 0,
        line: 0,
        used: 0,
        text: [0; 32768],
        told: [0; 512],
    });
    assert_eq!(unsafe { nmgc_begin(&mut *judge, program.as_ptr(), 1) }, 0, "no judge");
    for line in [
        "0 num r1 5 = ok",
        "0 con r2 0 r1 = 0.0",
        "0 var r0 r2 = 0.1",
        "0 nil r2 = ok",
    ] {
        command(&mut judge, line);
    }
    unsafe { nmgc_mark(&mut *judge) };
    judge
}

fn command(judge: &mut Judge, line: &str) {
    let line = CString::new(line).unwrap();
    unsafe { nmgc_command(judge, c"%s".as_ptr(), line.as_ptr()) };
}

fn told(judge: &Judge) -> &str {
    CStr::from_bytes_until_nul(&judge.told).unwrap().to_str().unwrap()
}

fn main() {
    let program = CString::new(std::env::args().nth(1).expect("usage: test PROGRAM")).unwrap();
    let mut log = Log::new();

    let mut judge = begun(&program);
    command(&mut judge, "0 get r2 r0 0 = 0.0");
    log.remember(name(0, 0));
    command(&mut judge, "0 set r0 0 r1 = ok");
    unsafe {
        nmgc_flush(&mut *judge, &mut log);
        assert_eq!(nmgc_settle(&mut *judge, 0), 0, "{}", told(&judge));
        assert_eq!(nmgc_close(&mut *judge), 0, "{}", told(&judge));
        let marked = [name(0, 0), name(0, 1), u64::MAX];
        assert_eq!(nmgc_marked(&mut *judge, marked.as_ptr(), 3), 0, "{}", told(&judge));
        assert_eq!(nmgc_end(&mut *judge), 0, "{}", told(&judge));
    }
    println!("right: {}", told(&judge));

    let mut judge = begun(&program);
    command(&mut judge, "0 get r2 r0 0 = 0.0");
    command(&mut judge, "0 set r0 0 r1 = ok");
    let line = judge.line;
    assert_eq!(unsafe { nmgc_settle(&mut *judge, 0) }, 1, "a wrong barrier is accepted");
    let sentence = format!("0.0 is due since line {line} (0 set r0 0 r1 = ok), and nobody remembered it");
    assert!(told(&judge).ends_with(&sentence), "{}", told(&judge));
    assert_eq!(unsafe { nmgc_end(&mut *judge) }, 1);
    println!("wrong, and told at the store: {}", told(&judge));
}
