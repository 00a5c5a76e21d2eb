//! The lines that a reader has to believe: the table of docs/READING.md with its numbers as they are.

use crate::house::House;

/// Each row of the table, as it stands and as it should.
pub fn rows(house: &House) -> Vec<(String, String)> {
    let mut total = 0;
    house
        .text("docs/READING.md")
        .lines()
        .filter_map(|line| {
            let (head, _) = line.strip_suffix(" |")?.rsplit_once(' ')?;
            let lines = if line.starts_with("| together ") {
                total
            } else {
                let file = line.strip_prefix("| `")?.split('`').next()?;
                let lines = house.text(file).lines().count();
                total += lines;
                lines
            };
            Some((line.to_string(), format!("{head} {lines} |")))
        })
        .collect()
}
