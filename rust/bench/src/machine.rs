//! What the times were taken on.

use std::fs;

/// The processor's name, where the system gives it.
pub fn processor() -> String {
    let known = fs::read_to_string("/proc/cpuinfo").unwrap_or_default();
    let model = known.lines().find(|line| line.starts_with("model name"));
    let name = model.and_then(|line| line.split(": ").nth(1));
    name.unwrap_or("unknown").to_string()
}

/// Whether this program was optimised.
pub fn build() -> &'static str {
    if cfg!(debug_assertions) {
        "not optimised, so the times say nothing"
    } else {
        "optimised"
    }
}
