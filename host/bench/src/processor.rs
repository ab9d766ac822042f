//! What the figures were measured on: a ratio on one processor is none on another.

/// Arm's own designs, by the part number that a core tells.
const PARTS: [(u32, &str); 20] = [
    (0xd03, "Cortex-A53"),
    (0xd05, "Cortex-A55"),
    (0xd07, "Cortex-A57"),
    (0xd08, "Cortex-A72"),
    (0xd09, "Cortex-A73"),
    (0xd0a, "Cortex-A75"),
    (0xd0b, "Cortex-A76"),
    (0xd0c, "Neoverse N1"),
    (0xd0d, "Cortex-A77"),
    (0xd40, "Neoverse V1"),
    (0xd41, "Cortex-A78"),
    (0xd44, "Cortex-X1"),
    (0xd46, "Cortex-A510"),
    (0xd47, "Cortex-A710"),
    (0xd48, "Cortex-X2"),
    (0xd49, "Neoverse N2"),
    (0xd4d, "Cortex-A715"),
    (0xd4e, "Cortex-X3"),
    (0xd4f, "Neoverse V2"),
    (0xd84, "Neoverse V3"),
];

/// The processor of this machine, as Linux tells it, with the number of its cores.
pub fn here() -> String {
    match std::fs::read_to_string("/proc/cpuinfo") {
        Ok(text) => named(&text),
        Err(_) => format!("unknown, {}", std::env::consts::ARCH),
    }
}

/// How much other work there was in the last minute, as Linux tells it.
pub fn load() -> Option<String> {
    let text = std::fs::read_to_string("/proc/loadavg").ok()?;
    text.split_whitespace().next().map(str::to_string)
}

/// The processors of a `/proc/cpuinfo`, each kind once. On x86-64 a core tells a name,
/// on Arm numbers for who designed it and which design it is.
pub fn named(text: &str) -> String {
    let mut kinds: Vec<(String, usize)> = Vec::new();
    for core in text.split("\n\n") {
        let Some(name) = core_name(core) else {
            continue;
        };
        match kinds.iter_mut().find(|kind| kind.0 == name) {
            Some(kind) => kind.1 += 1,
            None => kinds.push((name, 1)),
        }
    }
    if kinds.is_empty() {
        return format!("unknown, {}", std::env::consts::ARCH);
    }
    let told = |(name, cores): &(String, usize)| match cores {
        1 => format!("{name}, 1 core"),
        _ => format!("{name}, {cores} cores"),
    };
    kinds.iter().map(told).collect::<Vec<_>>().join("; ")
}

fn core_name(core: &str) -> Option<String> {
    let field = |name: &str| {
        let pair = |line: &str| {
            let (key, value) = line.split_once(':')?;
            (key.trim() == name).then(|| value.trim().to_string())
        };
        core.lines().find_map(pair)
    };
    let number = |name: &str| u32::from_str_radix(field(name)?.strip_prefix("0x")?, 16).ok();
    if let Some(name) = field("model name") {
        return Some(name);
    }
    let (designer, part) = (number("CPU implementer")?, number("CPU part")?);
    let known = PARTS.iter().find(|known| known.0 == part);
    Some(match known {
        Some((_, name)) if designer == 0x41 => format!("Arm {name}"),
        _ => format!("Arm, implementer {designer:#x}, part {part:#x}"),
    })
}
