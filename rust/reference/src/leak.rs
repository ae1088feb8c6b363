//! A test of the list that a leak writes.

use crate::calls::run;
use crate::list::read_list;
use crate::record::read;
use crate::safety::question;

/// Whether the bytes are a list by which s comes to hold the right over o: a list of the right form, of at most
/// n + 2 commands, none begun by a trusted subject, each accepted in turn with all its names within the record,
/// and the right held after the last, a basic right by owning o too. Gives the number of commands, or what is
/// wrong in words.
pub fn leaks_by(
    record: &[u8],
    trust: u64,
    s: u64,
    o: u64,
    right: u64,
    list: &[u8],
) -> Result<usize, String> {
    let station = read(record).map_err(|number| format!("the record is refused by {number}"))?;
    let q = question(&station, trust, s, o, right)
        .map_err(|number| format!("the question is refused by {number}"))?;
    let commands =
        read_list(list).map_err(|_| String::from("the list does not have a list's form"))?;
    if commands.len() as u64 > station.n + 2 {
        return Err(format!("{} commands, over n + 2", commands.len()));
    }
    if let Some([_, i, ..]) = commands.iter().find(|[_, i, ..]| q.trusted(*i)) {
        return Err(format!("the initiator {i} is trusted"));
    }
    // The run turns down, by 7, a command with a name beyond the record.
    let mut after = record.to_vec();
    let answer = run(&mut after, list);
    if answer.refusal != 0 {
        let at = answer.value + 1;
        return Err(format!("command {at} is refused by {}", answer.refusal));
    }
    let station =
        read(&after).map_err(|number| format!("the record after: refused by {number}"))?;
    if !station.state.held(q.s, q.o, q.right) {
        return Err(String::from("the right is not held after the list"));
    }
    Ok(commands.len())
}
