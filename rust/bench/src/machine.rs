//! The machine that the figures are of, and whether times taken on it are figures at all.

use std::fmt;
use std::fs::read_to_string;
use std::io;
use std::time::{SystemTime, UNIX_EPOCH};

/// Above this load another job is likely to have been running.
const QUIET: f64 = 0.5;

pub struct Machine {
    processor: String,
    cores: usize,
    date: String,
    load: Option<f64>,
}

/// This program's page faults up to now, with and without a read: fields 10 and 12 of /proc/self/stat, counted from 1.
pub fn page_faults() -> io::Result<u64> {
    let stat = read_to_string("/proc/self/stat")?;
    let fields: Vec<&str> = stat.split(' ').collect();
    let number = |field: usize| {
        fields
            .get(field - 1)
            .and_then(|text| text.parse::<u64>().ok())
    };
    match (number(10), number(12)) {
        (Some(minor), Some(major)) => Ok(minor + major),
        _ => Err(io::Error::new(io::ErrorKind::InvalidData, stat)),
    }
}

impl Machine {
    pub fn read() -> Machine {
        let cpuinfo = read_to_string("/proc/cpuinfo").unwrap_or_default();
        let since = SystemTime::now().duration_since(UNIX_EPOCH);
        let days = since.map_or(0, |since| since.as_secs() / 86_400);
        let load = read_to_string("/proc/loadavg").unwrap_or_default();
        Machine {
            processor: field(&cpuinfo, "model name")
                .unwrap_or("processor not named")
                .to_string(),
            cores: std::thread::available_parallelism().map_or(1, |cores| cores.get()),
            date: date(days),
            load: load.split(' ').next().and_then(|load| load.parse().ok()),
        }
    }
}

impl fmt::Display for Machine {
    fn fmt(&self, f: &mut fmt::Formatter) -> fmt::Result {
        let (processor, cores, date) = (&self.processor, self.cores, &self.date);
        write!(f, "{processor}, {cores} cores, {date}, ")?;
        match self.load {
            Some(load) => write!(f, "load average at the start {load:.2}.")?,
            None => write!(f, "load average not known.")?,
        }
        if self.load.map_or(true, |load| load > QUIET) {
            write!(
                f,
                "\n\n**Warning: the machine was not quiet (load above {QUIET}): times are upper bounds, ratios may be off either way.**"
            )?;
        }
        Ok(())
    }
}

/// Why times taken here are no figures; nothing on an x86-64 processor itself.
pub fn emulated() -> Option<String> {
    let cpuinfo = read_to_string("/proc/cpuinfo").unwrap_or_default();
    let arch = read_to_string("/proc/sys/kernel/arch").ok();
    if translated() {
        return Some("the processor is QEMU's translator".to_string());
    }
    foreign(&cpuinfo, arch.as_deref())
}

/// An emulator of programs shows the host's files in /proc, whatever processor the program was built for.
fn foreign(cpuinfo: &str, arch: Option<&str>) -> Option<String> {
    if let Some(arch) = arch.map(str::trim).filter(|arch| *arch != "x86_64") {
        return Some(format!("the kernel is for {arch}"));
    }
    match field(cpuinfo, "vendor_id") {
        Some("GenuineIntel" | "AuthenticAMD") => None,
        Some(other) => Some(format!("the processor is by {other}, not by Intel or AMD")),
        None => Some("/proc/cpuinfo names no x86-64 processor".to_string()),
    }
}

/// Whether the hypervisor's name, where there is one, is that of QEMU's translator: a whole machine may be emulated.
#[cfg(target_arch = "x86_64")]
fn translated() -> bool {
    use std::arch::x86_64::__cpuid;
    // SAFETY: every x86-64 processor has this instruction. Newer compilers need no `unsafe` here.
    #[allow(unused_unsafe)]
    let (features, name) = unsafe { (__cpuid(1), __cpuid(0x4000_0000)) };
    features.ecx >> 31 == 1 && name.ebx == u32::from_le_bytes(*b"TCGT")
}

#[cfg(not(target_arch = "x86_64"))]
fn translated() -> bool {
    false
}

/// The first value of that name in /proc/cpuinfo.
fn field<'a>(cpuinfo: &'a str, name: &str) -> Option<&'a str> {
    cpuinfo.lines().find_map(|line| {
        let (key, value) = line.split_once(':')?;
        (key.trim() == name).then(|| value.trim())
    })
}

/// A day counted from 1 January 1970.
fn date(days: u64) -> String {
    const MONTHS: [&str; 12] = [
        "January",
        "February",
        "March",
        "April",
        "May",
        "June",
        "July",
        "August",
        "September",
        "October",
        "November",
        "December",
    ];
    let mut day = days;
    let mut year = 1970;
    let leap = |year: u64| year % 4 == 0 && (year % 100 != 0 || year % 400 == 0);
    while day >= 365 + u64::from(leap(year)) {
        day -= 365 + u64::from(leap(year));
        year += 1;
    }
    let february = 28 + u64::from(leap(year));
    let lengths = [31, february, 31, 30, 31, 30, 31, 31, 30, 31, 30, 31];
    let mut month = 0;
    while day >= lengths[month] {
        day -= lengths[month];
        month += 1;
    }
    format!("{} {} {year}", day + 1, MONTHS[month])
}

#[cfg(test)]
mod tests {
    use super::{date, field, foreign};

    #[test]
    fn dates() {
        assert_eq!(date(0), "1 January 1970");
        assert_eq!(date(59), "1 March 1970");
        assert_eq!(date(11_016), "29 February 2000");
        assert_eq!(date(20_772), "15 November 2026");
    }

    #[test]
    fn only_x86_64_processors_give_figures() {
        let intel = "processor\t: 0\nvendor_id\t: GenuineIntel\nmodel name\t: Xeon\n";
        assert_eq!(field(intel, "model name"), Some("Xeon"));
        assert_eq!(foreign(intel, Some("x86_64\n")), None);
        assert_eq!(foreign(intel, None), None);
        assert!(foreign(intel, Some("aarch64\n")).is_some());
        let arm = "processor\t: 0\nCPU implementer\t: 0x41\n";
        assert!(foreign(arm, None).is_some());
    }
}
