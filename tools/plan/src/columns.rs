//! Two plans side by side.

use push_down_filter::image::Tree;
use push_down_filter::text::{lines, Names};

/// Lines longer than this are broken.
const WIDTH: usize = 72;

/// Two plans side by side, under their titles.
pub fn columns(before: &Tree, after: &Tree, names: &Names) -> String {
    let [left, right] = [("before", before), ("after", after)].map(|(title, plan)| {
        let lines = lines(plan, names).into_iter().flat_map(|(_, line)| broken(&line));
        std::iter::once(title.to_string()).chain(lines).collect::<Vec<String>>()
    });
    let width = left.iter().map(String::len).max().unwrap_or(0);
    let line = |lines: &[String], at: usize| lines.get(at).cloned().unwrap_or_default();
    let rows = (0..left.len().max(right.len())).map(|at| (line(&left, at), line(&right, at)));
    rows.map(|(left, right)| format!("{left:<width$} | {right}").trim_end().to_string() + "\n").collect()
}

/// A line broken at spaces; what follows the first part stands four spaces further in.
fn broken(line: &str) -> Vec<String> {
    let words = line.trim_start();
    let indent = line.len() - words.len();
    let mut parts = vec![" ".repeat(indent)];
    for word in words.split_inclusive(' ') {
        let last = parts.last_mut().expect("there is a part from the start");
        let is_full = last.trim_end().len() > indent + 4 && last.len() + word.trim_end().len() > WIDTH;
        match is_full {
            true => parts.push(" ".repeat(indent + 4) + word),
            false => last.push_str(word),
        }
    }
    parts.iter().map(|part| part.trim_end().to_string()).collect()
}

#[cfg(test)]
mod tests {
    use super::broken;

    #[test]
    fn long_lines_are_broken_at_spaces() {
        assert_eq!(broken("  Distinct"), ["  Distinct"]);
        let parts = broken(&("  Filter ".to_string() + &"t1.c1 > 5 AND ".repeat(12) + "TRUE"));
        assert!(parts.len() == 3 && parts.iter().all(|part| part.len() <= super::WIDTH), "{parts:?}");
        assert!(parts[1].starts_with("      ") && !parts[1].starts_with("       "), "{parts:?}");
    }
}
