//! What the figures were made on.

use std::fs;

pub fn print() {
    println!("- processor: {}", processor());
    println!("- compiler: {}, opt-level 3", env!("BENCH_COMPILER"));
    println!("- CRoaring: {}", installed(cfg!(peer_roaring)));
    println!("- sqlite3: {}", installed(cfg!(peer_sqlite3)));
}

fn installed(there: bool) -> &'static str {
    if there {
        "installed"
    } else {
        "not installed"
    }
}

fn processor() -> String {
    let info = fs::read_to_string("/proc/cpuinfo").unwrap_or_default();
    let field = |name: &str| {
        let line = info.lines().find(|line| line.starts_with(name))?;
        line.split_once(": ").map(|(_, value)| value.trim().to_string())
    };
    match (field("model name"), field("cpu family"), field("model\t")) {
        (Some(name), Some(family), Some(model)) => format!("{name}, family {family}, model {model}"),
        (Some(name), ..) => name,
        _ => "not known".to_string(),
    }
}
