//! The machine (Linux): what it is, what it did beside this process, and how much memory this process had at most.
use std::fs::read_to_string;
use std::time::Instant;

/// What /proc counts time in, for a second.
const TICKS: f64 = 100.0;

/// A file of the system; where there is none, nothing is told.
fn read(path: &str) -> String {
    read_to_string(path).unwrap_or_default()
}

/// What a file says behind a name, up to the line's end.
fn said(path: &str, name: &str) -> String {
    let text = read(path);
    let line = text.lines().find_map(|line| line.strip_prefix(name));
    line.unwrap_or("").trim_matches([' ', '\t', ':']).to_string()
}

/// Kibibytes that a file says behind a name, in GiB.
fn gibibytes(path: &str, name: &str) -> f64 {
    said(path, name).split(' ').next().and_then(|n| n.parse::<f64>().ok()).unwrap_or(0.0) / f64::from(1 << 20)
}

/// The most memory that this process had, in GiB.
pub fn peak() -> f64 {
    gibibytes("/proc/self/status", "VmHWM")
}

pub fn kind() -> String {
    let processors = std::thread::available_parallelism().map_or(0, usize::from);
    let (model, memory) = (said("/proc/cpuinfo", "model name"), gibibytes("/proc/meminfo", "MemTotal"));
    let huge = read("/sys/kernel/mm/transparent_hugepage/enabled");
    let huge = huge.split(['[', ']']).nth(1).unwrap_or("not known").to_string();
    format!("{model}, {} ({}), {processors} processors, {memory:.0} GiB, huge pages: {huge}", std::env::consts::ARCH, std::env::consts::OS)
}

/// Ticks of all other processes on all processors, and of other guests of the host in place of this one.
fn others() -> [f64; 2] {
    let ticks: Vec<f64> = said("/proc/stat", "cpu ").split(' ').filter_map(|n| n.parse().ok()).collect();
    let at = |k: usize| ticks.get(k).copied().unwrap_or(0.0);
    let stat = read("/proc/self/stat");
    let own = stat.rsplit(')').next().unwrap_or("").split(' ').skip(12).take(2);
    let own: f64 = own.filter_map(|n| n.parse::<f64>().ok()).sum();
    [at(0) + at(1) + at(2) + at(5) + at(6) - own, at(7)]
}

/// Whether the machine was left to this process, from a beginning on.
pub struct Quiet {
    begin: Instant,
    others: [f64; 2],
}

impl Quiet {
    pub fn begin() -> Quiet {
        Quiet { begin: Instant::now(), others: others() }
    }

    pub fn told(&self) -> String {
        let (now, seconds) = (others(), self.begin.elapsed().as_secs_f64());
        let share = |k: usize| 100.0 * (now[k] - self.others[k]) / TICKS / seconds;
        let quiet = if share(0) + share(1) < 5.0 { "quiet" } else { "not quiet" };
        format!("{quiet}: other processes had {:.0} % of a processor, other guests of the host {:.0} %", share(0), share(1))
    }
}
