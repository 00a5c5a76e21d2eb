//! What every public call must have.

use crate::house::{declared, House};

/// A public call: its name, and the contract that fixes its answer.
pub struct Call {
    pub name: String,
    contract: String,
    asks: bool,
}

/// The public calls, from the kernel's code.
pub fn all(house: &House) -> Vec<Call> {
    house
        .code("kernel")
        .split("\npub fn ")
        .skip(1)
        .map(|text| {
            let head = text.split("\n{").next().unwrap_or_default();
            let name = head.split(['(', '<']).next().unwrap_or_default();
            let contract = head
                .split("ensures { ")
                .nth(1)
                .and_then(|c| c.split(' ').next());
            Call {
                name: name.to_string(),
                contract: contract.unwrap_or_default().to_string(),
                asks: head.contains("requires"),
            }
        })
        .collect()
}

impl Call {
    pub fn checks(&self, house: &House, promises: &str) -> [(bool, String); 4] {
        let contract = &self.contract;
        let unique = house
            .file("kernel", "Unique")
            .split("\n\n")
            .filter(|text| text.contains(&format!(" {contract} ")))
            .find_map(|text| {
                text.lines()
                    .find_map(|line| declared(line)?.strip_suffix("_unique"))
            });
        let wrong = unique.map_or(0, |call| {
            let shams = house.file("kernel", "Shams");
            let names = shams
                .lines()
                .filter(|line| line.trim_start().starts_with("pub "))
                .filter_map(declared);
            names
                .filter(|name| {
                    name.strip_prefix(call)
                        .is_some_and(|rest| rest.starts_with(['_', '-']))
                })
                .count()
        });
        [
            (!self.asks, "a public call has no `requires`".to_string()),
            (
                promises
                    .lines()
                    .any(|line| line.starts_with('|') && line.contains(&format!("`{contract}`"))),
                format!("no row of docs/PROMISES.md names {contract}"),
            ),
            (
                unique.is_some(),
                format!("no uniqueness theorem speaks of {contract}"),
            ),
            (wrong >= 2, format!("{wrong} wrong programs")),
        ]
    }
}
