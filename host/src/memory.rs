//! The memory of a join.

/// Has memory for a take given back to the system when it is freed. GNU's C library would keep pieces of up to 32 MiB, and
/// in a tree of joins, whose pieces grow, what it keeps fits none of those that follow: a join of seven takes of 7 MiB took a
/// third more memory than one from left to right.
#[cfg(target_env = "gnu")]
pub fn give_back_what_is_freed() {
    use std::ffi::c_int;

    // SAFETY: so the C library's header declares it; it takes any numbers.
    unsafe extern "C" {
        safe fn mallopt(parameter: c_int, value: c_int) -> c_int;
    }
    const M_MMAP_THRESHOLD: c_int = -3;
    mallopt(M_MMAP_THRESHOLD, 1 << 17); // its value at the start, which would grow
}

/// Other C libraries do so by themselves.
#[cfg(not(target_env = "gnu"))]
pub fn give_back_what_is_freed() {}
