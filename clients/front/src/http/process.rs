//! Reads information about a process from `/proc`.

use nix::unistd::{sysconf, SysconfVar};
use std::fs;
use std::time::{SystemTime, UNIX_EPOCH};

/// Information about a process.
#[derive(Clone, Copy, Debug, Default, PartialEq)]
pub struct Process {
    /// Its resident memory.
    pub memory_bytes: u64,
    /// User and system CPU time.
    pub cpu_seconds: f64,
    /// The start time in seconds since 1970.
    pub start_seconds: f64,
    pub open_files: u64,
}

/// Reads the information about a process. Returns `None` if it has ended.
pub fn read(process: &str) -> Option<Process> {
    let stat = fs::read_to_string(format!("/proc/{}/stat", process)).ok()?;
    // The name of the program, in parentheses, may contain spaces.
    let fields: Vec<&str> = stat.rsplit_once(')')?.1.split_whitespace().collect();
    let number = |index: usize| fields.get(index)?.parse::<u64>().ok();
    if fields.first() == Some(&"Z") {
        return None;
    }
    let of_system = |name| sysconf(name).ok().flatten().map(|it| it as u64);
    let ticks = of_system(SysconfVar::CLK_TCK)? as f64;
    let (user, system, started, pages) = (number(11)?, number(12)?, number(19)?, number(21)?);
    let open_files = fs::read_dir(format!("/proc/{}/fd", process)).map_or(0, Iterator::count);
    Some(Process {
        memory_bytes: pages * of_system(SysconfVar::PAGE_SIZE)?,
        cpu_seconds: (user + system) as f64 / ticks,
        start_seconds: boot_seconds()? + started as f64 / ticks,
        open_files: open_files as u64,
    })
}

/// Returns the boot time in seconds since 1970.
fn boot_seconds() -> Option<f64> {
    let stat = fs::read_to_string("/proc/stat").ok()?;
    let line = stat.lines().find_map(|line| line.strip_prefix("btime "))?;
    line.trim().parse().ok()
}

/// Returns the seconds since 1970.
pub fn now_seconds() -> f64 {
    SystemTime::now().duration_since(UNIX_EPOCH).map_or(0.0, |it| it.as_secs_f64())
}

#[cfg(test)]
mod tests {
    use super::*;

    #[test]
    fn this_process_is_known() {
        let it = read("self").expect("a process");
        assert!(it.memory_bytes > 100_000 && it.open_files > 2, "{:?}", it);
        assert!((now_seconds() - it.start_seconds).abs() < 600.0, "{:?}", it);
        assert_eq!(read("0"), None);
    }
}
