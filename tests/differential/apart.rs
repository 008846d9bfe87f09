// Work in a process of its own: where a call may end the process that makes it, the program that asks goes on.
// Used only to make an input smaller that ended by a signal. One that runs on is ended by the alarm's signal.

extern "C" {
    fn fork() -> i32;
    fn waitpid(child: i32, status: *mut i32, options: i32) -> i32;
    fn _exit(status: i32) -> !;
    fn alarm(seconds: u32) -> u32;
}

/// Work that takes longer runs on. Every input that ends takes far less.
const SECONDS_MOST: u32 = 1;

/// The alarm's signal comes after so many seconds, counted from now; 0 is never.
pub fn set_alarm(seconds: u32) {
    unsafe { alarm(seconds) };
}

/// Whether a signal ends the work; the low seven bits of a status are the signal's number.
pub fn ends_by_signal(work: impl Fn()) -> bool {
    let mut status = 0;
    unsafe {
        let child = fork();
        assert!(child >= 0, "no process");
        if child == 0 {
            // a panic of the reference is no signal, and prints nothing here
            std::panic::set_hook(Box::new(|_| {}));
            set_alarm(SECONDS_MOST);
            let _ = std::panic::catch_unwind(std::panic::AssertUnwindSafe(work));
            _exit(0)
        }
        assert_eq!(waitpid(child, &mut status, 0), child);
    }
    status & 0x7f != 0
}
