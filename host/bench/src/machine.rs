//! The machine that the times are from.

use std::env::consts::ARCH;
use std::fs;

pub fn describe() -> String {
    let cpuinfo = fs::read_to_string("/proc/cpuinfo").unwrap_or_default();
    let field = |name: &str| {
        let line = cpuinfo.lines().find(|line| line.split(':').next().is_some_and(|key| key.trim() == name));
        line.and_then(|line| line.split_once(':')).map(|(_, value)| value.trim().to_string())
    };
    // An emulator of x86-64 shows the real machine's page, which has no vendor_id where it is another processor.
    let how = if field("vendor_id").is_some() { "both native" } else { "both emulated" };
    let model = field("model name").unwrap_or_else(|| "unknown processor".to_string());
    let mhz = field("cpu MHz").map_or(String::new(), |mhz| format!(", {} MHz", mhz.split('.').next().unwrap_or(&mhz)));
    format!("{ARCH}, {model}{mhz}; {how}")
}
