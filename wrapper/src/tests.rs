//! The samples through the wrapper.
use super::*;

macro_rules! sample {
    ($name:literal) => {
        include_bytes!(concat!("../../samples/", $name, ".task"))
    };
}

/// A position of a task that states no history size.
fn position(left: u8, right: u8, partners: [u8; 6]) -> Position {
    Position { left, right, partners, history: MOST_SEEN }
}

#[test]
fn equal_readers() {
    let report = compare_owned(sample!("case-01")).unwrap();
    let (start, after) = (position(0, 0, [0; 6]), position(1, 1, [1, 0, 0, 0, 0, 0]));
    assert_eq!((report.verdict, report.positions(), report.rounds), (Verdict::Equal, 2, 0));
    assert_eq!(report.certificate.len(), 20);
    assert!(report.entries().eq([(start, None), (after, None)]));
    assert!(report.records().eq([Record::Kept { position: start }, Record::Kept { position: after }]));
    let accepted = Acceptance { verdict: Verdict::Equal, rounds: 0 };
    assert_eq!(check(sample!("case-01"), &report.certificate), Ok(accepted));
}

#[test]
fn differing_readers() {
    let report = compare_owned(sample!("case-02")).unwrap();
    assert_eq!((report.verdict, report.positions(), report.rounds), (Verdict::Differ, 2, 1));
    let attack = Attack { side: Side::Left, edge: 0, case: Case::Seen };
    let lost = Record::Lost { position: position(0, 0, [0; 6]), attack: Some(attack), rounds: 1 };
    assert!(report.records().eq([lost]));
    assert_eq!(lost.to_string(), "LOST 0 0 0 0 0 0 0 0 13 1 0 7 1");
    let accepted = Acceptance { verdict: Verdict::Differ, rounds: 1 };
    assert_eq!(check(sample!("case-02"), &report.certificate), Ok(accepted));
}

/// The same readers from scratch: nothing was seen before that the right one could fail to take.
#[test]
fn readers_from_scratch() {
    let report = compare_owned(sample!("case-02-history-0")).unwrap();
    assert_eq!((report.verdict, report.positions(), report.rounds), (Verdict::Equal, 2, 0));
    let lines: Vec<String> = report.records().map(|record| record.to_string()).collect();
    assert_eq!(lines, ["KEPT 0 0 0 0 0 0 0 0 0", "KEPT 1 1 1 0 0 0 0 0 1"]);
    let histories = report.entries().map(|(position, _)| position.history);
    assert!(histories.eq([0, 1]));
}

/// A new number at the start makes room for one that was seen before.
#[test]
fn history_that_grows() {
    let report = compare_owned(sample!("further-8")).unwrap();
    assert_eq!((report.verdict, report.positions(), report.rounds), (Verdict::Differ, 5, 2));
    let attack = Attack { side: Side::Left, edge: 0, case: Case::New };
    let start = Position { history: 1, ..position(0, 0, [0; 6]) };
    assert_eq!(report.records().next(), Some(Record::Lost { position: start, attack: Some(attack), rounds: 2 }));
}

/// One above the greatest size, and one less than the start states hold.
#[test]
fn history_sizes() {
    let with_size = |task: &[u8], size: u8| [&task[..task.len() - 1], &[5, size, 15]].concat();
    for (task, held) in [(&sample!("case-02")[..], 0), (sample!("case-04"), 2), (sample!("case-05"), 1)] {
        for size in 0..=u8::MAX {
            let found = compare_owned(&with_size(task, size)).map(|_| ());
            let expected = if (held..=MOST_SEEN).contains(&size) { Ok(()) } else { Err(Refusal::BadHistory) };
            assert_eq!(found, expected, "size {size}, {held} held");
        }
    }
}

#[test]
fn differing_end_marks() {
    let report = compare_owned(sample!("case-06")).unwrap();
    assert_eq!((report.verdict, report.rounds), (Verdict::Differ, 0));
    let lost = Record::Lost { position: position(0, 0, [0; 6]), attack: None, rounds: 0 };
    assert!(report.records().eq([lost]));
    assert!(report.entries().eq([(position(0, 0, [0; 6]), Some(0))]));
}

/// Case 11: the left reader can still choose where the right one has chosen; with the sides exchanged nothing is missing.
#[test]
fn one_way_readers() {
    let (task, exchanged) = (sample!("case-11"), sample!("case-11-exchanged"));
    let report = Game::OneWay.compare_owned(task).unwrap();
    assert_eq!((report.verdict, report.positions(), report.rounds), (Verdict::FallsShort, 4, 2));
    assert_eq!(report.certificate.len(), 51);
    let attack = Attack { side: Side::Left, edge: 0, case: Case::Held };
    let start = position(0, 0, [1, 0, 0, 0, 0, 0]);
    assert_eq!(report.records().next(), Some(Record::Lost { position: start, attack: Some(attack), rounds: 2 }));
    assert_eq!(report.records().count(), 3);
    let accepted = Acceptance { verdict: Verdict::FallsShort, rounds: 2 };
    assert_eq!(Game::OneWay.check(task, &report.certificate), Ok(accepted));

    let report = Game::OneWay.compare_owned(exchanged).unwrap();
    assert_eq!((report.verdict, report.positions(), report.rounds), (Verdict::Follows, 4, 0));
    assert_eq!(report.certificate.len(), 40);
    assert_eq!(report.records().map(|record| record.to_string()).last().unwrap(), "KEPT 3 2 1 0 0 0 0 0 13");
    let accepted = Acceptance { verdict: Verdict::Follows, rounds: 0 };
    assert_eq!(Game::OneWay.check(exchanged, &report.certificate), Ok(accepted));
    assert_eq!(compare_owned(exchanged).unwrap().verdict, Verdict::Differ);
}

#[test]
fn one_way_end_marks() {
    let outcome = |task| Game::OneWay.compare_owned(task).map(|report| (report.verdict, report.rounds));
    assert_eq!(outcome(sample!("case-06")), Ok((Verdict::FallsShort, 0)));
    assert_eq!(outcome(sample!("case-06-exchanged")), Ok((Verdict::Follows, 0)));
}

/// Each game's own kinds are unknown to the other's check.
#[test]
fn kinds_of_the_other_game() {
    for (game, other) in [(Game::Equality, Game::OneWay), (Game::OneWay, Game::Equality)] {
        for task in [&sample!("case-01")[..], sample!("case-11")] {
            let certificate = game.compare_owned(task).unwrap().certificate;
            assert!(game.check(task, &certificate).is_ok());
            assert_eq!(other.check(task, &certificate), Err(Refusal::CertificateIllFormed));
        }
    }
}

#[test]
fn verdicts() {
    for (verdict, (number, name)) in Verdict::ALL.into_iter().zip((16..).zip(["EQUAL", "DIFFER", "FOLLOWS", "FALLS SHORT"])) {
        assert_eq!((verdict.number(), verdict.to_string()), (number, name.to_string()));
        assert_eq!(Verdict::from_number(number), Some(verdict));
    }
    assert_eq!((Verdict::from_number(15), Verdict::from_number(20)), (None, None));
}

#[test]
fn lent_slices() {
    let task = sample!("case-01");
    let mut table = [1; 32];
    let mut certificate = [1; 22];
    let found = compare(task, &mut table, &mut certificate).unwrap();
    assert_eq!(found, Comparison { verdict: Verdict::Equal, positions: 2, rounds: 0, length: 20 });
    assert_eq!((&table[26..], &certificate[20..]), (&[0; 6][..], &[1; 2][..]));
    assert_eq!(compare(task, &mut [1; 25], &mut certificate), Err(Refusal::TableTooSmall));
    assert_eq!(compare(task, &mut table, &mut [1; 19]), Err(Refusal::BufferTooSmall));
    assert_eq!(table, [0; 32]);
    assert_eq!(compare(task, &mut [], &mut []), Err(Refusal::TableTooSmall));
}

/// All positions of this sample are lost and listed: no certificate beside two entries is longer, without spare bytes and with
/// as many as make no third.
#[test]
fn most_lent() {
    const MOST: usize = most_certificate_bytes(2 * ENTRY_LENGTH);
    let task = sample!("further-3");
    for game in Game::ALL {
        for spare in [0, ENTRY_LENGTH - 1] {
            let mut table = vec![1; 2 * ENTRY_LENGTH + spare];
            assert_eq!(most_certificate_bytes(table.len()), MOST);
            assert_eq!(game.compare(task, &mut table, &mut [1; MOST]).map(|found| found.length), Ok(MOST));
            assert_eq!(game.compare(task, &mut table, &mut [1; MOST - 1]), Err(Refusal::BufferTooSmall));
        }
    }
    assert_eq!((MOST, most_certificate_bytes(ENTRY_LENGTH - 1)), (2 * LOST_LENGTH, 0));
    assert_eq!(most_certificate_bytes(isize::MAX as usize) / LOST_LENGTH, isize::MAX as usize / ENTRY_LENGTH);
    assert_eq!(most_certificate_bytes(usize::MAX), usize::MAX);
}

#[test]
fn refusals() {
    assert_eq!(compare_owned(&[]), Err(Refusal::TaskCut));
    assert_eq!(compare_owned(sample!("case-08")), Err(Refusal::RegisterRuleBroken));
    assert_eq!(check(&[9], &[]), Err(Refusal::UnknownRecord));
    assert_eq!(check(sample!("case-01"), &[20]), Err(Refusal::CertificateIllFormed));
    assert_eq!(check(sample!("case-01"), &[]), Err(Refusal::CertificateNotAccepted));
    let numbers: Vec<u32> = Refusal::ALL.iter().map(|r| r.number()).collect();
    assert!(numbers.into_iter().eq(1..=15));
    let of_a_record = Refusal::ALL.into_iter().filter(|r| r.is_of_a_record());
    assert!(of_a_record.map(Refusal::number).eq((1..=10).chain([15])));
    assert!(Refusal::TaskCut.to_string().starts_with("refusal 2: "));
}

/// Bytes that make no record end the iteration, whatever they are.
#[test]
fn records_of_other_bytes() {
    let kept = compare_owned(sample!("case-01")).unwrap().certificate;
    assert_eq!(records(&kept[..19]).count(), 1);
    assert_eq!(records(&[&kept[..], &[20]].concat()).count(), 2);
    let lost = compare_owned(sample!("case-11")).unwrap().certificate;
    assert_eq!(records(&lost).count(), 3);
    for (place, byte) in [(10, 0), (10, 3), (12, 9), (16, 0)] {
        let mut altered = lost.clone();
        altered[place] = byte;
        assert_eq!(records(&altered).count(), 0, "byte {place}");
    }
    assert_eq!(records(&[]).count(), 0);
}

/// 16 states a side, and as many matchings of 6 registers with 6; and sizes from 0 to 13.
#[test]
fn most_positions() {
    assert_eq!(MOST_POSITIONS_OF_A_SIZE, 16 * 16 * 13_327);
    assert_eq!(MOST_POSITIONS, 14 * 16 * 16 * 13_327);
}

#[test]
fn layout_of_the_answer() {
    use boundary::Answer;
    assert_eq!((size_of::<Answer>(), align_of::<Answer>()), (24, 8));
    assert_eq!(std::mem::offset_of!(Answer, length), 16);
}
