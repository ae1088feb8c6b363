//! The types around the calls: rights, headers, commands, lists and errors.

use std::error::Error;

use bunvespo::{
    Basic, Command, CommandRefused, EncodeError, Header, MOST_COMMANDS, MOST_PLAIN, MOST_SUBJECTS,
    ParseRightError, Refusal, Right, RunRefused, Safety, buffer_size, commands, encode, new_record,
    run, safety, to_version_2, trust_mask, valid,
};

#[test]
fn rights_and_their_codes() {
    for (code, right) in Right::ALL.into_iter().enumerate() {
        assert_eq!(right.code(), code as u64);
        assert_eq!(Right::from_code(code as u64), Some(right));
        assert!(right.in_cell(1 << code) && !right.in_cell(!(1 << code)));
    }
    assert_eq!((Right::ALL.len(), Basic::ALL.len()), (32, 15));
    let beyond = [32, 33, 255, 256, 1 << 32, 1 << 63, u64::MAX - 1, u64::MAX];
    for number in beyond {
        assert_eq!(Right::from_code(number), None);
        assert_eq!(Basic::from_number(number), None);
    }
    for (k, basic) in Basic::ALL.into_iter().enumerate() {
        assert_eq!(basic.number(), k as u64);
        assert_eq!(Right::Plain(basic).code(), 2 + 2 * k as u64);
        assert_eq!(Right::Starred(basic).code(), 3 + 2 * k as u64);
    }
    assert_eq!(Basic::from_number(15), None);
}

#[test]
fn rights_as_text() {
    let texts = Right::ALL.map(|right| right.to_string());
    let expected = "own control r0 r0* r1 r1* r2 r2* r3 r3* r4 r4* r5 r5* r6 r6* r7 r7* \
                    r8 r8* r9 r9* r10 r10* r11 r11* r12 r12* r13 r13* r14 r14*";
    assert_eq!(texts.join(" "), expected);
    for right in Right::ALL {
        assert_eq!(right.to_string().parse(), Ok(right));
    }
    let wrong = [
        "",
        " ",
        "Own",
        "own ",
        " own",
        "r",
        "r15",
        "r00",
        "r07",
        "r1 0",
        "r-1",
        "r0**",
        "*",
        "0",
        "r18446744073709551615",
    ];
    for text in wrong {
        assert_eq!(text.parse::<Right>(), Err(ParseRightError), "{text:?}");
    }
    assert_eq!(
        format!("{:>4}|{:<8}|", Right::Plain(Basic::R0), Right::Own),
        "  r0|own     |"
    );
}

/// Headers of bytes of every length and of every kind: no panic, and `None` or `RecordShort` where the bytes end.
#[test]
fn headers_of_any_bytes() {
    for byte in [0, 1, 2, 40, 41, 64, 127, 255] {
        for length in 0..40 {
            let record = vec![byte; length];
            let Ok(header) = Header::read(&record) else {
                assert!(length < Header::SIZE);
                continue;
            };
            assert!(length >= Header::SIZE);
            let (n, columns) = (u64::from(header.n), u64::from(header.columns()));
            assert_eq!(
                (header.version, n, columns),
                (byte, u64::from(byte), 2 * u64::from(byte))
            );
            assert_eq!(header.length, u32::from(byte) * 0x0101_0101);
            let (width, basics) = if byte == 1 { (2, 7) } else { (4, 15) };
            assert_eq!(
                (header.cell_bytes() as u64, header.basic_rights()),
                (width, basics)
            );
            assert_eq!(header.rights(), &Right::ALL[..2 + 2 * basics as usize]);
            assert_eq!(header.expected_length() as u64, 7 + width * n * columns);
            let read = (0..n).flat_map(|s| (0..columns).map(move |o| (s, o)));
            let read = read
                .filter(|&(s, o)| header.cell(&record, s, o).is_some())
                .count();
            assert_eq!(read as u64, (n * columns).min((length as u64 - 7) / width));
            for (s, o) in [
                (n, 0),
                (0, columns),
                (u64::MAX, 0),
                (0, u64::MAX),
                (u64::MAX, u64::MAX),
            ] {
                assert_eq!(header.cell(&record, s, o), None);
            }
        }
    }
}

#[test]
fn cells_of_station_a() {
    let narrow = include_bytes!("../../../stations/a.rights");
    let mut wide = [0; 55];
    assert_eq!(to_version_2(narrow, &mut wide), Ok(55));
    for record in [&narrow[..], &wide] {
        let header = Header::read(record).unwrap();
        let cells: Vec<u32> = (0..3)
            .flat_map(|s| (0..4).map(move |o| (s, o)))
            .map(|(s, o)| header.cell(record, s, o).unwrap())
            .collect();
        assert_eq!(cells, [2, 1, 0, 0, 0, 2, 1, 0, 0, 0, 2, 1]);
    }
}

/// The highest byte of a cell of version 2 comes first.
#[test]
fn cells_of_four_bytes() {
    let record = [2, 0, 0, 0, 6, 1, 0, 0x81, 0x42, 0x24, 0x18];
    let header = Header::read(&record).unwrap();
    assert_eq!(header.cell(&record, 0, 0), Some(0x8142_2418));
    assert_eq!(header.cell(&record[..10], 0, 0), None);
}

#[test]
fn new_records() {
    let (most_subjects, most_plain) = (u64::from(MOST_SUBJECTS), u64::from(MOST_PLAIN));
    for n in 0..=300 {
        for p in (0..=300).chain([1 << 32, u64::MAX]) {
            let within = (1..=most_subjects).contains(&n) && p <= most_plain;
            match new_record(n, p) {
                Ok(record) => {
                    assert!(within && valid(&record));
                    let header = Header::read(&record).unwrap();
                    assert_eq!((u64::from(header.n), u64::from(header.p)), (n, p));
                    assert_eq!(header.version, 1);
                    assert_eq!(header.expected_length(), record.len());
                }
                Err(refusal) => {
                    assert!(!within);
                    assert_eq!(refusal, Refusal::Counts);
                }
            }
        }
    }
}

#[test]
fn constructors() {
    let (i, s, o, k) = (1, 2, 3, Basic::R4);
    let made = [
        (Command::transfer(i, s, o, k), [1, 1, 2, 3, 4]),
        (Command::transfer_starred(i, s, o, k), [2, 1, 2, 3, 4]),
        (Command::transfer_own(i, s, o), [3, 1, 2, 3, 0]),
        (Command::grant(i, s, o, k), [4, 1, 2, 3, 4]),
        (Command::grant_starred(i, s, o, k), [5, 1, 2, 3, 4]),
        (Command::grant_control(i, s, o), [6, 1, 2, 3, 0]),
        (Command::grant_own(i, s, o), [7, 1, 2, 3, 0]),
        (Command::delete(i, s, o, k), [8, 1, 2, 3, 4]),
        (Command::delete_starred(i, s, o, k), [9, 1, 2, 3, 4]),
        (Command::create_object(i, o), [10, 1, 0, 3, 0]),
        (Command::destroy_object(i, o), [11, 1, 0, 3, 0]),
        (Command::create_subject(i, s), [12, 1, 2, 0, 0]),
        (Command::destroy_subject(i, s), [13, 1, 2, 0, 0]),
    ];
    for (command, [code, i, s, o, k]) in made {
        assert_eq!(command, Command::new(code, i, s, o, k));
    }
}

#[test]
fn lists_written_and_read() {
    let grant = Command::grant(0, 0, 1, Basic::R0);
    let mut given = vec![grant; MOST_COMMANDS];
    let list = encode(&given).unwrap();
    assert_eq!(list.len(), 60_005);
    assert_eq!(commands(&list, u64::MAX).collect::<Vec<_>>(), given);
    assert_eq!(
        commands(&list[..60_004], u64::MAX).count(),
        MOST_COMMANDS - 1
    );
    let mut record = new_record(1, 1).unwrap();
    assert_eq!(
        run(
            &mut record,
            &encode(&[Command::create_object(0, 1)]).unwrap()
        ),
        Ok(1)
    );
    assert_eq!(run(&mut record, &list), Ok(10_000));
    given.push(grant);
    assert_eq!(encode(&given), Err(EncodeError::TooMany));
    for place in 0..5 {
        let mut fields = [255; 5];
        fields[place] = 256;
        let [code, i, s, o, k] = fields;
        let wide = [grant, Command::new(code, i, s, o, k)];
        assert_eq!(encode(&wide), Err(EncodeError::Field { place: 1 }));
    }
}

#[test]
fn trust() {
    assert_eq!(trust_mask(0..64), Ok(u64::MAX));
    assert_eq!(trust_mask([63, 63]), Ok(1 << 63));
    for beyond in [64, 65, 1 << 32, u64::MAX] {
        assert_eq!(trust_mask([0, beyond]), Err(Refusal::Bounds));
    }
}

/// A mask may have a bit for a subject beyond the record; each question is refused by 7 then.
#[test]
fn trust_beyond_the_record() {
    for n in [1, 2, MOST_SUBJECTS.into()] {
        let record = new_record(n, 0).unwrap();
        let mut out = [0xEE; buffer_size(MOST_SUBJECTS)];
        for beyond in n..64 {
            let trust = trust_mask([0, beyond]).unwrap();
            let asked = safety(&record, trust, 0, 0, Right::Control, &mut out);
            assert_eq!(asked, Err(Refusal::Bounds));
        }
        assert_eq!(out, [0xEE; buffer_size(MOST_SUBJECTS)]);
        let trust = trust_mask(0..n).unwrap();
        let asked = safety(&record, trust, 0, 0, Right::Control, &mut out);
        assert_eq!(asked, Ok(Safety::Leaks(0)));
    }
}

/// What `?` puts into a box, and what it says.
#[test]
fn errors_in_words() {
    let (refusal, links, accepted) = (Refusal::RightLacking, 0, 3);
    let errors: [(Box<dyn Error + Send + Sync>, &str); 6] = [
        (
            Box::new(Refusal::Version),
            "refused 2: the record's version is neither 1 nor 2",
        ),
        (
            Box::new(CommandRefused { refusal, links }),
            "refused 12: the initiator lacks the right that the command asks for",
        ),
        (
            Box::new(RunRefused { refusal, accepted }),
            "refused 12: the initiator lacks the right that the command asks for (commands accepted before: 3)",
        ),
        (
            Box::new(EncodeError::TooMany),
            "a list holds at most 10000 commands",
        ),
        (
            Box::new(EncodeError::Field { place: 0 }),
            "command 1: a field is above 255",
        ),
        (
            Box::new(ParseRightError),
            "a right is own, control, r0 to r14, or r0* to r14*",
        ),
    ];
    for (error, words) in errors {
        assert_eq!(error.to_string(), words);
    }
    assert_eq!(Refusal::from(CommandRefused { refusal, links }), refusal);
    assert_eq!(Refusal::from(RunRefused { refusal, accepted }), refusal);
}

#[test]
fn refusals_and_their_numbers() {
    for (place, refusal) in Refusal::ALL.into_iter().enumerate() {
        let number = place as u64 + 1;
        assert_eq!(
            (u64::from(refusal.number()), Refusal::from_number(number)),
            (number, Some(refusal))
        );
    }
}
