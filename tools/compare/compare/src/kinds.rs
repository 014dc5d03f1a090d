//! Names for the ways in which an answer can differ.

/// What differs between the rules' lines for a command and a program's.
pub fn kind_of(right: &str, found: &str) -> String {
    let (right_head, found_head) = (head(right), head(found));
    if found_head.is_empty() {
        return "no answer".to_string();
    }
    if let Some(ending) = abnormal(found_head) {
        return ending;
    }
    if !right_head.starts_with("term ") {
        return format!("{} for {}", tail(found_head), tail(right_head));
    }
    term_kind(right, found)
}

fn head(block: &str) -> &str {
    block.lines().next().unwrap_or("")
}

fn tail(line: &str) -> &str {
    line.split_once(' ').map_or(line, |(_, rest)| rest)
}

/// A panic with its place, or an endless walk.
fn abnormal(line: &str) -> Option<String> {
    let words: Vec<&str> = line.split(' ').collect();
    match words.get(1..)? {
        ["panic", place, ..] => Some(format!("panic at {place}")),
        [word @ ("endless" | "dead"), ..] => Some(word.to_string()),
        _ => None,
    }
}

fn lines_with<'a>(block: &'a str, mark: &str) -> Vec<&'a str> {
    block.lines().filter(|line| line.starts_with(mark)).collect()
}

fn term_kind(right: &str, found: &str) -> String {
    let numbers = |block: &str| -> Vec<String> { head(block).split(' ').map(str::to_string).collect() };
    let (r, f) = (numbers(right), numbers(found));
    let mut parts = Vec::new();
    if r[1] != f[1] {
        parts.push(format!("answer {} for {}", f[1], r[1]));
    }
    if lines_with(right, " e") != lines_with(found, " e") {
        parts.push("other errors".to_string());
    }
    if r[3] != f[3] && r[1] == f[1] {
        parts.push("other walked count".to_string());
    }
    parts.extend(readings_kind(right, found));
    parts.join(", ")
}

fn readings_kind(right: &str, found: &str) -> Option<String> {
    let (r, f) = (lines_with(right, " r"), lines_with(found, " r"));
    if r == f {
        return None;
    }
    if found.contains(" many ") {
        return Some("very many readings".to_string());
    }
    let kind = if f.iter().any(|line| line.contains("freed")) {
        "a reading on a freed node"
    } else if f.iter().any(|line| line.contains('?')) {
        "a reading with stacks of unequal length"
    } else if f.len() > r.len() {
        "more readings"
    } else if f.len() < r.len() {
        "fewer readings"
    } else {
        same_count(&r, &f)
    };
    Some(kind.to_string())
}

fn same_count(right: &[&str], found: &[&str]) -> &'static str {
    let pairs = || right.iter().zip(found).filter(|(r, f)| r != f);
    let sorted = |lines: &[&str]| {
        let mut lines: Vec<String> = lines.iter().map(|l| l.to_string()).collect();
        lines.sort();
        lines
    };
    let lost_bottom = |(r, f): (&&str, &&str)| entries(r).ends_with(entries(f));
    if sorted(right) == sorted(found) {
        "readings in another order"
    } else if pairs().all(lost_bottom) {
        "a reading without its lower part"
    } else if pairs().any(|(_, f)| right.iter().chain(found).filter(|other| entries(other) == entries(f)).count() > 1) {
        "a reading is a copy of another"
    } else {
        "a reading with other entries"
    }
}

/// A reading's entries, without its mark.
fn entries(line: &str) -> &str {
    line.splitn(4, ' ').nth(3).unwrap_or("")
}
