//! Whether following owners from every subject comes to U.

use super::tables::ENTRIES;

/// Whether the owners of owners come to U from every subject, where each has at most one owner and U none. By doubling: in a
/// round each entry becomes the entry of the subject that it names, and one that was renewed earlier in the round is only
/// further up. After six rounds each entry has followed at least 64 owners, and only a subject on a cycle or below one is not
/// at U. Absent subjects have U as their entry. The highest is the first, as this is asked where an owner has a higher number
/// than what it owns.
///
/// Measured at n = 40, p = 120, with every owner higher, this takes about 70 ns, and the lowest first 110; rounds from one
/// table into another 140; following each subject's owners up to one that is known to come to U 115.
#[inline(never)]
pub fn rooted(owner: &[u8; ENTRIES], n: usize) -> bool {
    let mut owners = *owner;
    for _ in 0..ENTRIES.ilog2() {
        let mut some = 0;
        for s in (0..n).rev() {
            owners[s] = owners[owners[s] as usize % ENTRIES];
            some |= owners[s];
        }
        if some == 0 {
            return true;
        }
    }
    false
}
