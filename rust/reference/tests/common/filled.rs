//! Records with many rights in them.

use reference::command;

use crate::alone::alone;
use crate::random::Random;

/// A record of this version, n and p, in which random commands with these k were tried. Commands that only take
/// away are passed over, so that subjects, logs and rights gather.
pub fn filled([version, n, p]: [u8; 3], ks: &[u64], commands: u64, random: &mut Random) -> Vec<u8> {
    let mut record = alone(version, n, p);
    for _ in 0..commands {
        let fields = random.command(n.into(), p.into(), ks);
        if ![8, 9, 11, 13].contains(&fields[0]) {
            command(&mut record, fields);
        }
    }
    record
}
