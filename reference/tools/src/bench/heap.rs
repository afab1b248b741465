//! Memory that is freed stays with the process while times are taken. Otherwise the C library may give
//! the buffers of one call back to the system and fetch them again for the next, and the time of a
//! short call is mostly that. Whether it does depends on what else the heap holds.

#[cfg(all(target_os = "linux", target_env = "gnu"))]
pub fn keep_freed_memory() {
    extern "C" {
        fn mallopt(parameter: i32, value: i32) -> i32;
    }

    const TRIM_THRESHOLD: i32 = -1;
    // SAFETY: the C library, which the standard library links, takes any value here.
    unsafe { mallopt(TRIM_THRESHOLD, i32::MAX) };
}

#[cfg(not(all(target_os = "linux", target_env = "gnu")))]
pub fn keep_freed_memory() {}
