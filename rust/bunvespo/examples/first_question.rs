//! A first question: can subject 1 of station A come to hold basic right 0 over log 3? It is asked with everybody trusted, with
//! subjects 0 and 2 trusted, and with a trust mask that names a subject beyond the record.

use bunvespo::{Basic, Right, Safety, buffer_size, commands, safety};

/// Station A: U owns subject 1, subject 1 owns subject 2, and subject 2 owns log 3.
const STATION_A: [u8; 31] = [
    1, 0, 0, 0, 0x1A, 3, 1, // version, L, n, p
    0, 2, 0, 1, 0, 0, 0, 0, // row 0
    0, 0, 0, 2, 0, 1, 0, 0, // row 1
    0, 0, 0, 0, 0, 2, 0, 1, // row 2
];

/// Asks the question with a trust mask and prints the answer, with the list of commands where it leaks.
fn ask(trust: u64) {
    let mut out = [0; buffer_size(3)];
    match safety(&STATION_A, trust, 1, 3, Right::Plain(Basic::R0), &mut out) {
        Ok(Safety::Safe) => println!("trust {trust}: safe"),
        Ok(Safety::Leaks(count)) => {
            println!("trust {trust}: leaks {count}");
            for c in commands(&out, count) {
                println!("{} {} {} {} {}", c.code, c.i, c.s, c.o, c.k);
            }
        }
        Err(refusal) => println!("trust {trust}: {refusal}"),
    }
}

fn main() {
    ask(7);
    ask(5);
    ask(8);
}
