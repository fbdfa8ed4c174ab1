//! How much memory clients may take together.

use std::fs;

use escrowd_pg::budget::Pool;

/// What stays free for what is not counted: the gateway's code, what it reads of one message at a time, and what an
/// allocator wastes.
const FREE: u64 = 16 << 20;

/// Returns the memory that all connections may take: half of what the system grants the process.
///
/// While less than [`FREE`] is left, nothing more is taken, whatever it is that took the rest. So the system refuses no
/// memory on which the gateway depends, and a client that takes too much gets 53200 instead.
pub fn of_connections() -> Pool {
    let limits = [machine(), address_space(), control_group()];
    let granted = limits.iter().copied().flatten().min().unwrap_or(u64::MAX);
    Pool::guarded(granted / 2, has_room)
}

/// Returns whether the process may take more memory. Its limits may have changed since its start.
fn has_room() -> bool {
    let is_free = |limit: Option<u64>, taken: Option<u64>| match (limit, taken) {
        (Some(limit), Some(taken)) => taken.saturating_add(FREE) <= limit,
        _ => true,
    };
    let group = control_group();
    is_free(address_space(), taken_of_address_space())
        && (group.is_none() || is_free(group, taken_of_group()))
}

fn read(path: &str) -> Option<String> {
    fs::read_to_string(path).ok()
}

/// Returns the limit of the address space (`ulimit -v`), if there is one.
fn address_space() -> Option<u64> {
    limit_of_address_space(&read("/proc/self/limits")?)
}

/// Returns how much of its address space the process has taken.
fn taken_of_address_space() -> Option<u64> {
    kilobytes(&read("/proc/self/status")?, "VmSize:")
}

/// Returns the machine's memory.
fn machine() -> Option<u64> {
    kilobytes(&read("/proc/meminfo")?, "MemTotal:")
}

/// Returns the least limit of the process's control group (version 2) and of those above it, if there is one.
fn control_group() -> Option<u64> {
    folders_of_group()?
        .iter()
        .filter_map(|folder| read(&format!("{folder}/memory.max"))?.trim().parse().ok())
        .min()
}

/// Returns what the process's control group has taken.
fn taken_of_group() -> Option<u64> {
    let folder = folders_of_group()?.into_iter().next()?;
    read(&format!("{folder}/memory.current"))?
        .trim()
        .parse()
        .ok()
}

fn folders_of_group() -> Option<Vec<String>> {
    Some(folders(&read("/proc/self/cgroup")?))
}

/// Reads the limit of the address space in /proc/self/limits. None: there is none.
fn limit_of_address_space(limits: &str) -> Option<u64> {
    let line = limits
        .lines()
        .find_map(|line| line.strip_prefix("Max address space"))?;
    line.split_whitespace().next()?.parse().ok()
}

/// Reads the bytes behind a name in /proc/meminfo or in /proc/self/status.
fn kilobytes(text: &str, name: &str) -> Option<u64> {
    let line = text.lines().find_map(|line| line.strip_prefix(name))?;
    let kilobytes: u64 = line.split_whitespace().next()?.parse().ok()?;
    kilobytes.checked_mul(1024)
}

/// Returns the folder of the control group that /proc/self/cgroup names, and those above it.
fn folders(cgroup: &str) -> Vec<String> {
    let path = cgroup.lines().find_map(|line| line.strip_prefix("0::/"));
    let mut folders = Vec::new();
    let mut rest = path;
    while let Some(path) = rest {
        folders.push(format!("/sys/fs/cgroup/{path}"));
        rest = match path.rsplit_once('/') {
            Some((above, _)) => Some(above),
            None => Some("").filter(|_| !path.is_empty()),
        };
    }
    folders
}

#[cfg(test)]
mod tests {
    use super::*;

    #[test]
    fn limits_are_read_as_the_system_writes_them() {
        let limits = |value: &str| {
            format!(
                "Limit                     Soft Limit           Hard Limit           Units     \n\
                 Max address space         {value}            unlimited            bytes     \n"
            )
        };
        assert_eq!(limit_of_address_space(&limits("1073741824")), Some(1 << 30));
        assert_eq!(limit_of_address_space(&limits("unlimited")), None);
        let text = "MemTotal:       24000 kB\nMemFree: 1 kB\n";
        assert_eq!(kilobytes(text, "MemTotal:"), Some(24_576_000));
        assert_eq!(kilobytes("", "MemTotal:"), None);
    }

    #[test]
    fn the_groups_above_one_count_too() {
        let root = "/sys/fs/cgroup/";
        let under = format!("{root}system.slice/x.service");
        let slice = format!("{root}system.slice");
        assert_eq!(
            folders("1:name=x:/y\n0::/system.slice/x.service\n"),
            [&under, &slice, root]
        );
        assert_eq!(folders("0::/\n"), [root]);
        assert!(folders("1:name=x:/y\n").is_empty());
    }

    #[test]
    fn this_process_has_room() {
        assert!(has_room() && of_connections().limit() > 0);
    }
}
