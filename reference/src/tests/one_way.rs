//! The one-way game, by hand.

use crate::checker::{expect_by, refused as check_refused};
use crate::marked::{hex, known_model, model_g, model_p, refused, run_by, task_11, task_of};
use crate::Test;
use reference::check::{check, check_one_way, CheckAnswer};
use reference::compare::{compare_one_way, Answer};
use reference::numbers::{opening, Game, Number};
use reference::rules::Rules;
use reference::task::{read, write};
use reference::text::compare_output_by;

pub const TESTS: &[Test] = &[
    ("one-way: marked case 11", case_11),
    ("one-way: marked case 11 with the sides exchanged", case_11_exchanged),
    ("one-way: end marks", end_marks),
    ("one-way: the other marked cases", marked_cases),
    ("one-way: lent sizes of cases 9 and 10", marked_sizes),
    ("one-way: a right side that can do more", more_on_the_right),
    ("one-way: actual numbers", actual_numbers),
    ("one-way: printed lines", printed),
    ("one-way checker: sets and attacks", sets_and_attacks),
    ("one-way checker: the other game's kinds meet 13", other_kinds),
    ("one-way checker: attacks of the right side meet 14", right_attacks),
    ("one-way checker: end marks", checked_end_marks),
];

const ONE_WAY: Rules = Rules::ONE_WAY;

fn follows(positions: u32, certificate_length: u32) -> Answer {
    Answer { refusal: 0, verdict: 18, positions, rounds: 0, certificate_length }
}

fn falls_short(positions: u32, rounds: u32, certificate_length: u32) -> Answer {
    Answer { refusal: 0, verdict: 19, positions, rounds, certificate_length }
}

const FOLLOWS: CheckAnswer = CheckAnswer { refusal: 0, verdict: 18, rounds: 0 };

fn short(rounds: u32) -> CheckAnswer {
    CheckAnswer { refusal: 0, verdict: 19, rounds }
}

fn roomy(task: &[u8]) -> Answer {
    run_by(ONE_WAY, task, 1200, 1600).0
}

fn exchanged(task: &[u8]) -> Vec<u8> {
    write(&read(task).expect("a valid task").exchanged())
}

fn case_11() {
    let (answer, table, buffer) = run_by(ONE_WAY, &task_11(), 52, 51);
    assert_eq!(answer, falls_short(4, 2, 51));
    let records = "13 00 00 01 00 00 00 00 00 0d 01 00 00 00 00 00 02 \
                   13 01 01 01 00 00 00 00 00 0d 01 02 00 00 00 00 01 \
                   13 01 02 01 00 00 00 00 00 0d 01 01 00 00 00 00 01";
    assert_eq!(buffer, hex(records));
    let entries = "00 00 01 00 00 00 00 00 0d 00 00 00 02  01 01 01 00 00 00 00 00 0d 00 00 00 01 \
                   01 02 01 00 00 00 00 00 0d 00 00 00 01  02 03 01 00 00 00 00 00 0d ff ff ff ff";
    assert_eq!(table, hex(entries));
}

fn case_11_exchanged() {
    let task = exchanged(&task_11());
    let (answer, table, buffer) = run_by(ONE_WAY, &task, 53, 41);
    assert_eq!(answer, follows(4, 40));
    let records = "12 00 00 01 00 00 00 00 00 0d  12 01 01 01 00 00 00 00 00 0d \
                   12 02 01 01 00 00 00 00 00 0d  12 03 02 01 00 00 00 00 00 0d  a5";
    assert_eq!(buffer, hex(records));
    assert!(table.chunks(13).take(4).all(|entry| entry[9..] == [0xff; 4]));
    assert_eq!(table[52], 0);
    // Either way it is DIFFER where both sides attack.
    assert_eq!(run_by(Rules::TWO_WAY, &task, 52, 1600).0.verdict, 2);
}

fn idle_task(left_mark: &str, right_mark: &str) -> Vec<u8> {
    let model = |mark: &str| hex(&format!("01 00 01 00  02 00 00 {mark}"));
    task_of(model(left_mark), model(right_mark), &[])
}

fn end_marks() {
    for (left, right) in [("00", "00"), ("00", "01"), ("01", "01")] {
        assert_eq!(roomy(&idle_task(left, right)), follows(1, 10), "{left} {right}");
    }
    let (answer, table, buffer) = run_by(ONE_WAY, &idle_task("01", "00"), 13, 17);
    assert_eq!(answer, falls_short(1, 0, 17));
    assert_eq!(table, hex("00 00 00 00 00 00 00 00 0d 00 00 00 00"));
    assert_eq!(buffer, hex("13 00 00 00 00 00 00 00 00 0d 00 00 00 00 00 00 00"));
}

fn marked_cases() {
    let two = hex("01 02 02 00  02 00 00 00  02 01 02 00  03 00 00 01 02 01  03 01 01 00 02 01");
    let loops = known_model(1, &[[0, 0, 0]]);
    let outside = hex("01 01 01 00  02 00 00 00  03 00 00 00 01 00");
    for (task, wanted) in [
        (task_of(model_p(), model_p(), &[]), follows(2, 20)),
        (task_of(model_p(), model_g(), &[]), falls_short(2, 1, 17)),
        (task_of(model_g(), model_p(), &[]), follows(2, 20)),
        (task_of(model_p(), two.clone(), &[]), follows(2, 20)),
        (task_of(two, model_p(), &[]), follows(2, 20)),
        (task_of(loops.clone(), loops.clone(), &[]), falls_short(1, 1, 17)),
        (task_of(loops.clone(), loops, &[[1, 1]]), follows(1, 10)),
        (Vec::new(), refused(2)),
        (task_of(outside.clone(), outside, &[]), refused(7)),
    ] {
        assert_eq!(roomy(&task), wanted, "{task:02x?}");
    }
}

fn marked_sizes() {
    let task = task_of(model_p(), model_p(), &[]);
    for (table_size, buffer_size, refusal) in [(25, 20, 11), (26, 19, 12), (25, 19, 11)] {
        let (answer, table, buffer) = run_by(ONE_WAY, &task, table_size, buffer_size);
        assert_eq!(answer, refused(refusal));
        assert_eq!((table, buffer), (vec![0; table_size], vec![0xa5; buffer_size]));
    }
    let (mut table, mut buffer) = (vec![0xa5; 26], vec![0xa5; 20]);
    assert_eq!(compare_one_way(&task, &mut table, &mut buffer), follows(2, 20));
    let (answer, table, buffer) = run_by(ONE_WAY, &[], 26, 20);
    assert_eq!(answer, refused(2));
    assert_eq!((table, buffer), (vec![0xa5; 26], vec![0xa5; 20]));
}

/// Register 1 held and paired; the right reader takes tag 1 besides tag 0,
/// and may end where the left one may not.
fn richer_right() -> Vec<u8> {
    let left = known_model(1, &[[0, 0, 0]]);
    let right = hex("01 01 01 00  02 00 01 01  03 00 00 00 01 00  03 00 01 00 01 00");
    task_of(left, right, &[[1, 1]])
}

fn more_on_the_right() {
    assert_eq!(roomy(&richer_right()), follows(1, 10));
    assert_eq!(roomy(&exchanged(&richer_right())), falls_short(1, 0, 17));
}

/// The least count up to 6 that is enough, or None.
fn least_count(task: &[u8]) -> Option<u32> {
    let task = read(task).expect("a valid task");
    let numbers: Vec<Number> = (0..40).collect();
    let setting = opening(&task, &numbers, 13);
    (0..=6).find(|&count| Game::new(ONE_WAY, &task, 1).forced_within(&setting, count))
}

fn actual_numbers() {
    assert_eq!(least_count(&task_11()), Some(2));
    assert_eq!(least_count(&exchanged(&task_11())), None);
    assert_eq!(least_count(&idle_task("01", "00")), Some(0));
    assert_eq!(least_count(&idle_task("00", "01")), None);
    assert_eq!(least_count(&richer_right()), None);
    assert_eq!(least_count(&exchanged(&richer_right())), Some(0));
    assert_eq!(least_count(&task_of(model_p(), model_g(), &[])), Some(1));
    assert_eq!(least_count(&task_of(model_g(), model_p(), &[])), None);
}

fn printed() {
    let p_g = task_of(model_p(), model_g(), &[]);
    let lines = |task: &[u8]| compare_output_by(ONE_WAY, task);
    assert_eq!(lines(&p_g), "FALLS SHORT 2 1\nLOST 0 0 0 0 0 0 0 0 13 1 0 7 1\n");
    let kept = "FOLLOWS 2 0\nKEPT 0 0 0 0 0 0 0 0 13\nKEPT 1 1 1 0 0 0 0 0 13\n";
    assert_eq!(lines(&exchanged(&p_g)), kept);
    assert_eq!(lines(&[]), "REFUSED 2\n");
    assert_eq!(lines(&[0; 4097]), "TOO LONG\n");
}

fn expect(task: &[u8], certificate: &[&str], wanted: CheckAnswer) {
    expect_by(ONE_WAY, task, certificate, wanted);
}

const START: &str = "12 00 00 00 00 00 00 00 00 0d ";
const AFTER: &str = "12 01 01 01 00 00 00 00 00 0d ";
const LOST: &str = "13 00 00 00 00 00 00 00 00 0d ";

fn sets_and_attacks() {
    // G has no attack that P cannot reply to; P has one.
    let g_p = task_of(model_g(), model_p(), &[]);
    expect(&g_p, &[START, AFTER], FOLLOWS);
    expect(&g_p, &[START], check_refused(14));
    expect(&g_p, &[AFTER], check_refused(14));
    expect(&g_p, &[], check_refused(14));
    expect(&g_p, &[AFTER, START], check_refused(13));
    expect(&g_p, &[LOST, "01 00 08 00 00 00 01"], check_refused(14));
    let p_g = task_of(model_p(), model_g(), &[]);
    expect(&p_g, &[START, AFTER], check_refused(14));
    expect(&p_g, &[LOST, "01 00 07 00 00 00 01"], short(1));
    expect(&p_g, &[LOST, "01 00 07 00 00 01 02"], short(258));
    expect(&p_g, &[LOST, "01 00 08 00 00 00 01"], check_refused(14));
    expect(&p_g, &[LOST, "00 00 00 00 00 00 00"], check_refused(14));
    expect(&p_g, &[LOST, "01 00 07 00 00 00"], check_refused(13));
    // The task comes first.
    expect(&[], &["10"], check_refused(2));
}

/// The certificate with other kinds in its records.
fn with_kind(certificate: &str, kind: &str) -> String {
    format!("{kind}{}", &certificate[2..])
}

fn other_kinds() {
    let g_p = task_of(model_g(), model_p(), &[]);
    let p_p = task_of(model_p(), model_p(), &[]);
    let [old_start, old_after] = [START, AFTER].map(|record| with_kind(record, "10"));
    for task in [&g_p, &p_p] {
        expect(task, &[&old_start, &old_after], check_refused(13));
        expect(task, &[&old_start, AFTER], check_refused(13));
        expect(task, &[START, &old_after], check_refused(13));
        expect_by(Rules::TWO_WAY, task, &[START, AFTER], check_refused(13));
        expect_by(Rules::TWO_WAY, task, &[&old_start, AFTER], check_refused(13));
    }
    expect_by(Rules::TWO_WAY, &g_p, &[&old_start, &old_after], check_refused(14));
    let p_g = task_of(model_p(), model_g(), &[]);
    let attack = "01 00 07 00 00 00 01 ";
    expect(&p_g, &[&with_kind(LOST, "11"), attack], check_refused(13));
    expect_by(Rules::TWO_WAY, &p_g, &[LOST, attack], check_refused(13));
    // Kinds that no game has, and two kinds of this game.
    for kind in ["00", "0f", "14", "ff"] {
        expect(&p_g, &[kind], check_refused(13));
    }
    expect(&p_g, &[LOST, attack, AFTER], check_refused(13));
    // Both entries by name.
    assert_eq!(check_one_way(&p_p, &hex(START)), check_refused(14));
    assert_eq!(check(&p_p, &hex(START)), check_refused(13));
}

fn right_attacks() {
    // P, on the right, wins where both sides attack.
    let g_p = task_of(model_g(), model_p(), &[]);
    let record = "02 00 07 00 00 00 01";
    let differ = CheckAnswer { refusal: 0, verdict: 2, rounds: 1 };
    expect_by(Rules::TWO_WAY, &g_p, &[&with_kind(LOST, "11"), record], differ);
    expect(&g_p, &[LOST, record], check_refused(14));
    // Two loops of unlike tags: no attack has a reply.
    let loops = |tag| known_model(1, &[[0, tag, 0]]);
    let unlike = task_of(loops(0), loops(1), &[]);
    expect(&unlike, &[LOST, "01 00 00 00 00 00 01"], short(1));
    expect(&unlike, &[LOST, "02 00 00 00 00 00 01"], check_refused(14));
    for side in ["00", "03", "ff"] {
        expect(&unlike, &[LOST, side, " 00 00 00 00 00 01"], check_refused(14));
    }
}

fn checked_end_marks() {
    let zeros = "00 00 00 00 00 00 00";
    expect(&idle_task("00", "01"), &[START], FOLLOWS);
    expect(&idle_task("00", "01"), &[LOST, zeros], check_refused(14));
    expect(&idle_task("01", "00"), &[START], check_refused(14));
    expect(&idle_task("01", "00"), &[LOST, zeros], short(0));
    expect(&idle_task("01", "00"), &[LOST, "01 00 00 00 00 00 00"], check_refused(14));
    expect(&idle_task("01", "00"), &[LOST, "00 00 00 00 00 00 01"], check_refused(14));
    expect(&idle_task("01", "01"), &[LOST, zeros], check_refused(14));
}
