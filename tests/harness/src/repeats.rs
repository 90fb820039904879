//! How often the yardstick looks for a greatest work that it has looked for before.

use crate::bench_sets::{sets, Table};
use crate::yardstick;

const LEGEND: &str = "Greatest works that the yardstick looks for in whole listings.
repeated: those at a length that was looked at before for the same row and group";

/// Prints a line for each table that is measured.
pub fn repeats() -> bool {
    println!("{LEGEND}");
    for (title, tables) in sets() {
        println!("\n{title}\n{:<42}{:>10}{:>10}", "", "looks", "repeated");
        for Table { name, lengths, rows } in &tables {
            let (looks, repeated) = yardstick::count_looks(lengths, rows);
            println!("{name:<42}{looks:>10}{repeated:>10}");
        }
    }
    true
}
