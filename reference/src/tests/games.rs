//! What the two games of a task have to do with each other, on random
//! tasks.

use crate::whole::{assert_least_count, is_small, random_opening, rounds_at_start, tasks};
use crate::Test;
use reference::certificate::{listed_position, LOST_LENGTH, SIDE_AT};
use reference::check::{check_by, CheckAnswer};
use reference::compare::*;
use reference::game::attacks;
use reference::model::*;
use reference::numbers::Game;
use reference::random::Random;
use reference::rules::Rules;
use reference::tally::Tally;
use reference::task::write;

pub const TESTS: &[Test] = &[
    ("games: EQUAL gives FOLLOWS whichever side attacks", equal_gives_follows),
    ("games: EQUAL gives FOLLOWS or a buffer too small", equal_within_lent_sizes),
    ("games: actual numbers where the verdicts part", parted_verdicts),
    ("games: each check turns the other's certificates back", other_certificates),
    ("games: attacks of the right side are not accepted one-way", right_attacks),
    ("games: mistaken one-way rules are found by the items", mistakes),
    ("games: mistaken one-way rules are contradicted", numbers_show_mistakes),
];

const TWO_WAY: Rules = Rules::TWO_WAY;
const ONE_WAY: Rules = Rules::ONE_WAY;

/// Both games reach the same positions, since any two edges that can make a
/// round do so by an attack of the left side too; and where both sides
/// attack, no position is lost later.
fn assert_sooner(two: &Solution, one: &Solution) {
    assert_eq!(two.entries.len(), one.entries.len());
    for (both, left) in two.entries.iter().zip(&one.entries) {
        assert!(both.0 == left.0 && both.1 <= left.1, "{both:?} {left:?}");
    }
}

fn equal_gives_follows() {
    let mut seen = Tally::default();
    for task in tasks(95, 4500) {
        let (two, one) = (solve(TWO_WAY, &task), solve(ONE_WAY, &task));
        let back = solve(ONE_WAY, &task.exchanged());
        assert_sooner(&two, &one);
        assert_sooner(&solve(TWO_WAY, &task.exchanged()), &back);
        if two.verdict == Verdict::Equal {
            assert_eq!((one.verdict, back.verdict), (Verdict::Follows, Verdict::Follows));
        }
        seen.add([&two, &one, &back].map(|s| s.verdict.key()).join(" "));
    }
    print!("{}", seen.table());
    for outcome in [
        "EQUAL FOLLOWS FOLLOWS",
        "DIFFER FOLLOWS FOLLOWS",
        "DIFFER FOLLOWS FALLS-SHORT",
        "DIFFER FALLS-SHORT FOLLOWS",
        "DIFFER FALLS-SHORT FALLS-SHORT",
    ] {
        assert!(seen.get(outcome) >= 30, "{outcome}");
    }
}

/// With room for EQUAL exactly, only the certificate can be too long: more
/// positions are kept one way.
fn equal_within_lent_sizes() {
    let mut refusals = Tally::default();
    for task in tasks(96, 4500) {
        let two = solve(TWO_WAY, &task);
        if two.verdict != Verdict::Equal {
            continue;
        }
        for task in [task.exchanged(), task] {
            let mut table = vec![0xa5; two.entries.len() * ENTRY_LENGTH];
            let mut buffer = vec![0xa5; two.certificate.len()];
            let answer = compare_one_way(&write(&task), &mut table, &mut buffer);
            refusals.add(answer.refusal.to_string());
            let wanted = if answer.refusal == 0 { Verdict::Follows.number() } else { 0 };
            assert_eq!(answer.verdict, wanted);
        }
    }
    print!("{}", refusals.table());
    assert!(refusals.get("0") >= 1000 && refusals.get("12") >= 10 && refusals.get("11") == 0);
}

/// Small tasks that are DIFFER and FOLLOWS, or lost later one way.
fn parted_verdicts() {
    let mut seen = Tally::default();
    let mut random = Random::new(98);
    for task in tasks(97, 12_000).filter(is_small) {
        let (two, one) = (solve(TWO_WAY, &task), solve(ONE_WAY, &task));
        if (two.verdict.is_kept(), two.rounds) == (one.verdict.is_kept(), one.rounds) {
            continue;
        }
        seen.add_beside(&two, &one);
        let setting = random_opening(&mut random, &task);
        assert_least_count(&task, &setting, &two);
        assert_least_count(&task, &setting, &one);
    }
    print!("{}", seen.table());
    assert!(seen.get("beside:DIFFER-but-kept") >= 100);
    assert!(seen.get("beside:DIFFER-and-lost-later") >= 30);
}

fn refused(refusal: u32) -> CheckAnswer {
    CheckAnswer { refusal, ..CheckAnswer::default() }
}

fn other_certificates() {
    for task in tasks(99, 3000) {
        for rules in Rules::ALL {
            let certificate = solve(rules, &task).certificate;
            assert_eq!(check_by(rules.other(), &write(&task), &certificate), refused(13));
        }
    }
}

/// In each record that has an attack, each attack of the right side in its
/// place, whether it wins where both sides attack or not.
fn right_attacks() {
    let mut tried = 0;
    for task in tasks(100, 2000) {
        let solution = solve(ONE_WAY, &task);
        if solution.verdict.is_kept() || solution.certificate.len() > 50 * LOST_LENGTH {
            continue;
        }
        let bytes = write(&task);
        for certificate in with_right_attacks(&task, &solution) {
            assert_eq!(check_by(ONE_WAY, &bytes, &certificate), refused(14));
            tried += 1;
        }
    }
    assert!(tried > 1000, "{tried}");
}

fn with_right_attacks(task: &Task, solution: &Solution) -> Vec<Vec<u8>> {
    let mut list = Vec::new();
    for (place, record) in solution.certificate.chunks(LOST_LENGTH).enumerate() {
        let position = listed_position(record);
        if record[SIDE_AT] == 0 {
            continue;
        }
        let all = attacks(TWO_WAY, task, &position).into_iter();
        for attack in all.filter(|a| a.side == Side::Right) {
            let fields = [attack.side.number(), attack.edge, attack.case];
            let mut altered = solution.certificate.clone();
            altered[place * LOST_LENGTH + SIDE_AT..][..3].copy_from_slice(&fields);
            list.push(altered);
        }
    }
    list
}

/// The one-way rules with one mistake each: the right side attacks too; the
/// right side attacks alone; all end marks that differ lose; those of the
/// other way lose.
fn mistaken_rules() -> [Rules; 4] {
    [
        Rules { attackers: &Side::BOTH, ..ONE_WAY },
        Rules { attackers: &[Side::Right], ..ONE_WAY },
        Rules { losing_marks: &[(0, 1), (1, 0)], ..ONE_WAY },
        Rules { losing_marks: &[(0, 1)], ..ONE_WAY },
    ]
}

fn mistakes() {
    let mut shown = [0; 4];
    for task in tasks(101, 3000) {
        let right = solve(ONE_WAY, &task);
        for (mistake, rules) in mistaken_rules().into_iter().enumerate() {
            shown[mistake] += (solve(rules, &task).entries != right.entries) as u32;
        }
    }
    println!("       items that show a mistake: {shown:?}");
    assert!(shown.iter().all(|&n| n >= 50), "{shown:?}");
}

fn numbers_show_mistakes() {
    let mut shown = [0; 4];
    let mut random = Random::new(103);
    for task in tasks(102, 4000).filter(is_small) {
        let setting = random_opening(&mut random, &task);
        let mut game = Game::new(ONE_WAY, &task, 1);
        for (mistake, rules) in mistaken_rules().into_iter().enumerate() {
            let rounds = rounds_at_start(&task, &solve(rules, &task).entries);
            let mut disagrees = |n: u32| game.forced_within(&setting, n) != (rounds <= n);
            shown[mistake] += (0..=3).any(&mut disagrees) as u32;
        }
    }
    println!("       tasks that show a mistake: {shown:?}");
    assert!(shown.iter().all(|&n| n >= 10), "{shown:?}");
}
