//! The core that the run stays on, and the processor it belongs to.
//!
//! std has no call for the first, but links the C library that has.

/// Keeps the process on the core it is on, so that no round has the cost of a move or of another core's
/// clock. Answers the core's number; none where the system has no such call or refuses it.
pub fn stay() -> Option<usize> {
    system::stay()
}

/// The processor by name and numbers and how many cores the machine has, as far as the system tells.
pub fn processor() -> String {
    let text = std::fs::read_to_string("/proc/cpuinfo").unwrap_or_default();
    let values = |field: &'static str| {
        text.lines()
            .filter_map(|line| line.split_once(':'))
            .filter(move |(name, _)| name.trim() == field)
            .map(|(_, value)| value.trim())
    };
    let told = |field| values(field).next().unwrap_or("unknown");
    format!(
        "{}, family {}, model {}, stepping {}, {} cores",
        told("model name"),
        told("cpu family"),
        told("model"),
        told("stepping"),
        values("processor").count()
    )
}

#[cfg(target_os = "linux")]
mod system {
    use std::ffi::{c_int, c_ulong};

    /// A set of cores is a row of bits; the C library's own type has as many.
    const MOST_CORES: usize = 1024;
    const WORD_BITS: usize = c_ulong::BITS as usize;
    type Cores = [c_ulong; MOST_CORES / WORD_BITS];

    extern "C" {
        fn sched_getcpu() -> c_int;
        fn sched_setaffinity(process: c_int, bytes: usize, cores: *const c_ulong) -> c_int;
    }

    pub fn stay() -> Option<usize> {
        let core = usize::try_from(unsafe { sched_getcpu() }).ok()?;
        let mut cores: Cores = [0; MOST_CORES / WORD_BITS];
        *cores.get_mut(core / WORD_BITS)? = 1 << (core % WORD_BITS);
        // Process 0 is this one.
        let refused = unsafe { sched_setaffinity(0, size_of::<Cores>(), cores.as_ptr()) };
        (refused == 0).then_some(core)
    }
}

#[cfg(not(target_os = "linux"))]
mod system {
    pub fn stay() -> Option<usize> {
        None
    }
}
