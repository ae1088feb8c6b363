//! The window of the last 256 entries and the counts it shows (Manual 9).

use reference::{Answer, WINDOW_SIZE, Window};

/// Numbers that are no subject numbers. Some would be one if their high bits were left out.
const TOO_HIGH: [u64; 9] = [
    64,
    65,
    127,
    255,
    256,
    1 << 16,
    1 << 32,
    1 << 63 | 5,
    u64::MAX,
];

const TAKEN: Answer = answered(0);

const GIVEN_17: Answer = Answer {
    refusal: 17,
    value: 0,
};

const fn answered(value: u64) -> Answer {
    Answer { refusal: 0, value }
}

/// Puts the same entry this many times, each of which is taken.
fn put(window: &mut Window, initiator: u64, outcome: u64, times: usize) {
    for _ in 0..times {
        let before = window.entries();
        assert_eq!(window.put(initiator, outcome), TAKEN);
        assert_eq!(window.entries(), before + 1);
    }
}

/// Asserts the 64 counts: these, given as number and count, and 0 for all other numbers.
fn shows(window: &Window, counts: &[(u64, u64)]) {
    let mut expected = [0; 64];
    for &(number, count) in counts {
        expected[number as usize] = count;
    }
    for number in 0..64 {
        let count = answered(expected[number as usize]);
        assert_eq!(window.count(number), count, "number {number}");
    }
}

#[test]
fn an_empty_window_counts_nothing() {
    assert_eq!(WINDOW_SIZE, 385);
    for window in [Window::new(), Window::default()] {
        assert_eq!(window.entries(), 0);
        shows(&window, &[]);
        assert_eq!(window.bytes(), [0; 385]);
    }
}

#[test]
fn a_refused_entry_counts_for_its_initiator_alone() {
    for initiator in 0..64 {
        let mut window = Window::new();
        put(&mut window, initiator, 1, 1);
        shows(&window, &[(initiator, 1)]);
    }
}

#[test]
fn an_accepted_entry_does_not_count() {
    for initiator in 0..64 {
        let mut window = Window::new();
        put(&mut window, initiator, 0, 1);
        assert_eq!(window.entries(), 1);
        shows(&window, &[]);
        // It has a place all the same: the next entry stands in byte 1.
        put(&mut window, initiator, 12, 1);
        shows(&window, &[(initiator, 1)]);
        let bytes = window.bytes();
        assert_eq!(bytes[..3], [0x00, initiator as u8 + 1, 0x00]);
        assert_eq!(bytes[384], 0x02);
    }
}

#[test]
fn any_outcome_but_0_is_a_refusal() {
    let outcomes = [1, 2, 16, 17, 18, 64, 255, 256, 1 << 32, 1 << 63, u64::MAX];
    let mut all = Window::new();
    for (index, outcome) in outcomes.into_iter().enumerate() {
        let mut one = Window::new();
        put(&mut one, 63, outcome, 1);
        shows(&one, &[(63, 1)]);
        put(&mut all, 63, outcome, 1);
        shows(&all, &[(63, index as u64 + 1)]);
        // The bytes do not tell one refusal from another.
        let mut expected = [0; 385];
        expected[0] = 0x40;
        expected[383] = 0x01;
        expected[384] = 0x01;
        assert_eq!(one.bytes(), expected, "outcome {outcome}");
    }
}

#[test]
fn a_count_goes_up_to_256() {
    for number in 0..64 {
        let mut window = Window::new();
        put(&mut window, number, 8, 255);
        shows(&window, &[(number, 255)]);
        put(&mut window, number, 8, 1);
        shows(&window, &[(number, 256)]);
        let mut expected = [0; 385];
        expected[..256].fill(number as u8 + 1);
        let at = 256 + 2 * number as usize;
        expected[at] = 0x01;
        expected[at + 1] = 0x00;
        assert_eq!(window.bytes(), expected);
        // Three more of them change the number of entries only.
        put(&mut window, number, 8, 3);
        shows(&window, &[(number, 256)]);
        expected[384] = 0x03;
        assert_eq!(window.bytes(), expected);
    }
}

#[test]
fn the_257th_entry_ends_the_count_of_the_first() {
    // Another number's refusals, the same number's accepted entries, another number's accepted entries.
    for (initiator, outcome, others) in [(4, 12, 256), (3, 0, 0), (4, 0, 0)] {
        let mut window = Window::new();
        put(&mut window, 3, 9, 1);
        put(&mut window, initiator, outcome, 255);
        assert_eq!(window.count(3), answered(1));
        put(&mut window, initiator, outcome, 1);
        assert_eq!(window.entries(), 257);
        shows(&window, &[(4, others)]);
    }
}

#[test]
fn a_refusal_in_place_of_a_refusal_does_not_change_the_count() {
    let mut window = Window::new();
    put(&mut window, 3, 9, 1);
    put(&mut window, 4, 0, 255);
    put(&mut window, 3, 10, 1);
    shows(&window, &[(3, 1)]);
}

#[test]
fn an_accepted_entry_that_leaves_the_window_lowers_no_count() {
    let mut window = Window::new();
    put(&mut window, 3, 0, 10);
    put(&mut window, 3, 9, 246);
    shows(&window, &[(3, 246)]);
    put(&mut window, 5, 0, 10);
    shows(&window, &[(3, 246)]);
    put(&mut window, 5, 0, 1);
    shows(&window, &[(3, 245)]);
    put(&mut window, 5, 1, 1);
    shows(&window, &[(3, 244), (5, 1)]);
}

#[test]
fn the_256_places_are_shared_by_all_numbers() {
    let mut window = Window::new();
    for number in 0..64 {
        put(&mut window, number, 1, 4);
    }
    let four: Vec<_> = (0..64).map(|number| (number, 4)).collect();
    shows(&window, &four);
    put(&mut window, 63, 1, 128);
    let mut after: Vec<_> = (32..63).map(|number| (number, 4)).collect();
    after.push((63, 132));
    shows(&window, &after);
}

#[test]
fn initiators_of_64_and_more_are_given_17_and_change_nothing() {
    let mut window = Window::new();
    for times in [0, 1, 200, 54, 1, 1, 300] {
        put(&mut window, 5, 12, times);
        let (entries, bytes) = (window.entries(), window.bytes());
        for initiator in TOO_HIGH {
            for outcome in [0, 1, 17, u64::MAX] {
                assert_eq!(window.put(initiator, outcome), GIVEN_17);
                assert_eq!(window.entries(), entries);
                assert_eq!(window.bytes(), bytes);
            }
        }
        shows(&window, &[(5, entries.min(256) as u64)]);
    }
}

#[test]
fn entries_given_17_have_no_place() {
    let mut with = Window::new();
    let mut without = Window::new();
    for index in 0..600 {
        // 256 of these between any two entries would end all counts, if they had places.
        for high in 0..256 {
            assert_eq!(with.put(64 + high, index % 2), GIVEN_17);
        }
        let (initiator, outcome) = (index % 64, index % 3);
        put(&mut with, initiator, outcome, 1);
        put(&mut without, initiator, outcome, 1);
        assert_eq!(with.bytes(), without.bytes());
    }
    assert_eq!(with.entries(), 600);
}

#[test]
fn counts_of_64_and_more_are_given_17() {
    let mut window = Window::new();
    for times in [0, 1, 255, 1, 100] {
        put(&mut window, 0, 3, times);
        for number in TOO_HIGH {
            assert_eq!(window.count(number), GIVEN_17, "number {number}");
        }
    }
    assert_eq!(window.count(0), answered(256));
    assert_eq!(window.count(63), answered(0));
}

/// Entries in no plain order, the same at each call: first any numbers, some of 64 and more among them, then
/// mostly refusals of 9, then again any numbers.
fn mixed_entries() -> Vec<(u64, u64)> {
    let mut state = 102_u64;
    let mut next = |below: u64| {
        state = state
            .wrapping_mul(6_364_136_223_846_793_005)
            .wrapping_add(1_442_695_040_888_963_407);
        (state >> 33) % below
    };
    let mut entries = Vec::new();
    for index in 0..2_000 {
        let only_9 = (800..1_400).contains(&index);
        let initiator = if only_9 && next(200) != 0 {
            9
        } else {
            next(70)
        };
        let outcome = if only_9 && next(200) != 0 {
            14
        } else {
            next(3) * next(18)
        };
        entries.push((initiator, outcome));
    }
    entries
}

/// The counts after these entries, by going back from the last until 256 were met that are not given 17.
fn counts_by_index(given: &[(u64, u64)]) -> [u64; 64] {
    let mut counts = [0; 64];
    let mut met = 0;
    let mut index = given.len();
    while index > 0 && met < 256 {
        index -= 1;
        let (initiator, outcome) = given[index];
        if initiator >= 64 {
            continue;
        }
        met += 1;
        if outcome > 0 {
            counts[initiator as usize] += 1;
        }
    }
    counts
}

#[test]
fn a_long_history_counts_as_by_index() {
    let given = mixed_entries();
    let mut window = Window::new();
    let mut highest = 0;
    for length in 1..=given.len() {
        let (initiator, outcome) = given[length - 1];
        let answer = if initiator < 64 { TAKEN } else { GIVEN_17 };
        assert_eq!(window.put(initiator, outcome), answer);
        let counts = counts_by_index(&given[..length]);
        for number in 0..64 {
            let count = counts[number as usize];
            assert_eq!(window.count(number), answered(count), "after {length}");
            highest = highest.max(count);
        }
    }
    let taken = given.iter().filter(|entry| entry.0 < 64).count();
    assert_eq!(window.entries(), taken);
    assert!(1_000 < taken && taken < given.len());
    assert!(200 < highest);
}

/// The bytes after each entry from the bytes before it: the count of what stood in the byte goes down by 1,
/// that of the new entry up by 1.
#[test]
fn a_long_history_has_the_bytes_changed_one_entry_at_a_time() {
    let mut window = Window::new();
    let mut bytes = [0_u8; 385];
    let mut position = 0;
    for (initiator, outcome) in mixed_entries() {
        window.put(initiator, outcome);
        if initiator < 64 {
            let old = usize::from(bytes[position]);
            if old != 0 {
                add(&mut bytes, old - 1, -1);
            }
            bytes[position] = 0;
            if outcome != 0 {
                add(&mut bytes, initiator as usize, 1);
                bytes[position] = initiator as u8 + 1;
            }
            position = (position + 1) % 256;
            bytes[384] = position as u8;
        }
        assert_eq!(window.bytes(), bytes);
    }
}

/// Adds to the count of a number in the bytes.
fn add(bytes: &mut [u8; 385], number: usize, change: i32) {
    let (high, low) = (256 + 2 * number, 257 + 2 * number);
    let count = i32::from(bytes[high]) * 256 + i32::from(bytes[low]) + change;
    bytes[high] = (count / 256) as u8;
    bytes[low] = (count % 256) as u8;
}

/// The entries of the bytes written by hand below.
fn entry(m: u64) -> (u64, u64) {
    match m {
        0 => (5, 12),
        1..=254 => (63, 8),
        255 => (0, 17),
        256 => (5, 0),
        257..=499 => (7, u64::MAX),
        500..=511 => (0, 1),
        555 => (5, 10),
        599 => (63, 13),
        _ => (2, 0),
    }
}

/// The window after this many of these entries.
fn after(entries: u64) -> Window {
    let mut window = Window::new();
    for (initiator, outcome) in (0..entries).map(entry) {
        put(&mut window, initiator, outcome, 1);
    }
    window
}

#[test]
fn the_bytes_of_up_to_257_entries() {
    let mut expected = [0x00; 385];
    assert_eq!(after(0).bytes(), expected);

    expected[0] = 0x06;
    expected[266..268].copy_from_slice(&[0x00, 0x01]);
    expected[384] = 0x01;
    assert_eq!(after(1).bytes(), expected);

    expected[1..255].fill(0x40);
    expected[382..384].copy_from_slice(&[0x00, 0xFE]);
    expected[384] = 0xFF;
    assert_eq!(after(255).bytes(), expected);

    expected[255] = 0x01;
    expected[256..258].copy_from_slice(&[0x00, 0x01]);
    expected[384] = 0x00;
    assert_eq!(after(256).bytes(), expected);

    expected[0] = 0x00;
    expected[266..268].copy_from_slice(&[0x00, 0x00]);
    expected[384] = 0x01;
    assert_eq!(after(257).bytes(), expected);
}

/// Of 600 entries, those from 344 on are the last 256. Entry 344 stands in byte 88, and entry 512 in byte 0.
#[test]
fn the_bytes_of_600_entries() {
    let mut expected = [0x00; 385];
    expected[43] = 0x06;
    expected[87] = 0x40;
    expected[88..244].fill(0x08);
    expected[244..256].fill(0x01);
    expected[256..258].copy_from_slice(&[0x00, 0x0C]);
    expected[266..268].copy_from_slice(&[0x00, 0x01]);
    expected[270..272].copy_from_slice(&[0x00, 0x9C]);
    expected[382..384].copy_from_slice(&[0x00, 0x01]);
    expected[384] = 0x58;
    let window = after(600);
    assert_eq!(window.bytes(), expected);
    // Reading changes nothing.
    shows(&window, &[(0, 12), (5, 1), (7, 156), (63, 1)]);
    assert_eq!(window.bytes(), expected);
    assert_eq!(window.entries(), 600);
}
