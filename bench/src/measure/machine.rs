//! The machine on which the tables are taken.

use super::timing::clock;
use std::fs::read_to_string;

/// The processor's name as the system tells it. One for Arm gives two numbers;
/// the names are Arm's.
pub fn processor() -> String {
    const ARM: [(&str, &str); 4] = [
        ("0xd0c", "Arm Neoverse N1"),
        ("0xd40", "Arm Neoverse V1"),
        ("0xd49", "Arm Neoverse N2"),
        ("0xd4f", "Arm Neoverse V2"),
    ];
    let info = read_to_string("/proc/cpuinfo").unwrap_or_default();
    let field = |name: &str| {
        let line = info.lines().find(|line| line.starts_with(name))?;
        Some(line.split(": ").nth(1)?.trim().to_string())
    };
    let arm = || {
        let part =
            field("CPU part").filter(|_| field("CPU implementer").as_deref() == Some("0x41"))?;
        let known = ARM.iter().find(|(number, _)| *number == part);
        Some(known.map_or(format!("Arm part {part}"), |(_, name)| name.to_string()))
    };
    let name = field("model name").or_else(arm);
    name.unwrap_or_else(|| "unknown processor".into())
}

/// What is measured and how, for the head of the tables.
pub fn told() -> String {
    let cores = std::thread::available_parallelism().map_or(1, |n| n.get());
    let compiled = if cfg!(target_arch = "x86_64") {
        "The archives are those of `bench/archives`."
    } else {
        "The archives that a module links are for x86-64. Here the same proved modules were\n\
         compiled for this processor, by the kit's compiler at the same level (`bench/native`)."
    };
    format!(
        "{}, {cores} cores. {compiled}\n\n\
         Times are in nanoseconds: what one run in ten is below, of 15 to 4,001 runs. The things\n\
         that a table compares take turns in one run, on the same buffers. Before each the sectors\n\
         that a call changes are brought back from a template, so all is as warm as the cache\n\
         allows. The clock's own {} ns are taken off. What is above its aim is in bold.\n\n\
         Directories: fresh; full, a file in each of the 4 D entries and about half of the data in\n\
         use, runs in the order of the entries; shuffled, the same files with their entries in\n\
         another order; long names, full, with names of 32 bytes that share their first 29.\n",
        processor(),
        clock()
    )
}
