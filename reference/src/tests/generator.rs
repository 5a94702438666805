//! The generator's quotas, and that they can be missed.

use crate::whole::tasks;
use crate::Test;
use reference::certificate::{listed_position, listed_rounds, LOST_LENGTH};
use reference::compare::{solve, Solution};
use reference::generate::doubles::doubled;
use reference::generate::families::{family, FAMILIES};
use reference::generate::histories::stating;
use reference::generate::proposals::{proposal, ProposalKind};
use reference::generate::quota::*;
use reference::generate::sweeps::Sweep;
use reference::generate::*;
use reference::model::{Task, Verdict};
use reference::random::Random;
use reference::rules::Rules;
use reference::tally::Tally;
use reference::task::{body_length, read, write, END, HISTORY, PAIR};
use std::collections::BTreeSet;

pub const TESTS: &[Test] = &[
    ("generator: quotas in 20,000 items", || quotas_are_met(Rules::TWO_WAY)),
    ("generator: quotas in 20,000 items, one-way", || quotas_are_met(Rules::ONE_WAY)),
    ("generator: a poor mix misses the quotas", quotas_can_be_missed),
    ("generator: the same seed gives the same items", repeatable),
    ("generator: undamaged items are valid", valid_items),
    ("generator: proposed certificates", || {
        proposed_certificates(Rules::TWO_WAY);
    }),
    ("generator: proposed certificates, one-way", one_way_certificates),
    ("generator: end marks that differ are listed by attacks", || marked_later(Rules::TWO_WAY)),
    ("generator: end marks that lose are listed by attacks, one-way", || {
        marked_later(Rules::ONE_WAY)
    }),
    ("generator: sweeps have every proposal once", sweeps),
    ("generator: doubled edges change nothing but replies", doubled_edges),
    ("generator: history records are damaged in every way", damaged_histories),
    ("generator: families are valid", valid_families),
    ("generator: families of a stated size", stated_sizes),
    ("generator: families whose readers begin with nothing", filled_from_nothing),
];

fn quotas_are_met(rules: Rules) {
    let (table, met) = quota_table(rules, &measure(rules, 1, 20_000));
    print!("{table}");
    assert!(met);
}

/// Small items alone have no refusals and no long attacks; and nothing at
/// all misses everything.
fn quotas_can_be_missed() {
    for rules in Rules::ALL {
        let small = (0..4000).map(|index| item_of_kind(1, index, ItemKind::Small));
        let (table, met) = quota_table(rules, &measure_items(rules, small));
        assert!(!met);
        let missed = |key: &str| table.lines().any(|l| l.contains("MISSED") && l.ends_with(key));
        assert!(missed("refusal:7") && missed("rounds:15+") && missed("case:6"));
        assert!(!missed("case:0"));
        let (table, met) = quota_table(rules, &Tally::default());
        assert!(!met);
        assert_eq!(table.matches("MISSED").count(), quotas(rules).len());
    }
}

fn repeatable() {
    for index in 0..500 {
        assert_eq!(item(5, index).bytes, item(5, index).bytes);
    }
    let differing = (0..500).filter(|&n| item(5, n).bytes != item(6, n).bytes).count();
    assert!(differing > 450, "{differing}");
}

fn valid_items() {
    for index in 0..5000 {
        let made = item(7, index);
        let valid = read(&made.bytes).is_ok();
        assert!(valid || made.kind == ItemKind::Damaged, "item {index} of {:?}", made.kind);
    }
}

/// Counts by kind and by what the checker says.
fn proposed_certificates(rules: Rules) -> Tally {
    let tally = measure_proposals(rules, 8, 2000);
    let count =
        |kind: ProposalKind, word: &str| tally.get(&format!("proposal:{}:{word}", kind.name()));
    for &kind in ProposalKind::drawn(rules) {
        let (thirteen, fourteen) = (count(kind, "refused-13"), count(kind, "refused-14"));
        let accepted = count(kind, "accepted");
        assert!(accepted + thirteen + fourteen > 1000);
        if kind.is_right() {
            assert_eq!((thirteen, fourteen), (0, 0), "{}", kind.name());
        }
    }
    use ProposalKind::*;
    for always_ill_formed in [Reordered, TwoKinds, IllegalSize] {
        assert_eq!(
            count(always_ill_formed, "accepted") + count(always_ill_formed, "refused-14"),
            0
        );
    }
    for never_right in [Empty, OtherVerdict] {
        assert_eq!(count(never_right, "accepted") + count(never_right, "refused-13"), 0);
    }
    for often_wrong in [ByteAltered, Cut, WrongAttack, RecordMissing, SizeAltered, SizeTwins] {
        assert!(count(often_wrong, "refused-14") >= 50, "{}", often_wrong.name());
    }
    // Twins have legal sizes and stand in order; some are not needed.
    assert!(count(SizeTwins, "refused-13") == 0 && count(SizeTwins, "accepted") >= 200);
    assert!(count(SizeAltered, "refused-13") >= 200);
    tally
}

/// Kinds of the other game are always a matter of 13; its own lists under
/// this game's kinds are well formed, and some of them right.
fn one_way_certificates() {
    let tally = proposed_certificates(Rules::ONE_WAY);
    let count = |key: &str| tally.get(&format!("proposal:{key}"));
    assert_eq!(count("other-kinds:accepted") + count("other-kinds:refused-14"), 0);
    assert_eq!(count("other-rules:refused-13"), 0);
    assert!(count("other-rules:accepted") >= 500 && count("other-rules:refused-14") >= 200);
}

/// Whether a list of lost positions names one that is lost at once with
/// rounds above 0.
fn lists_marks_by_attack(rules: Rules, task: &Task, certificate: &[u8]) -> bool {
    certificate.chunks(LOST_LENGTH).any(|record| {
        listed_position(record).is_lost_at_once(rules, task) && listed_rounds(record) != 0
    })
}

fn marked_later(rules: Rules) {
    let mut met = 0;
    for index in 0..3000 {
        let Ok(task) = read(&item(9, index).bytes) else {
            continue;
        };
        let solution = solve(rules, &task);
        let mut random = Random::for_item(9, index);
        let made = proposal(&mut random, &task, &solution, ProposalKind::MarkedLater);
        if !solution.verdict.is_kept() {
            met += lists_marks_by_attack(rules, &task, &made) as usize;
        }
    }
    assert!(met >= 50, "{met}");
}

fn sweeps() {
    let right: Vec<u8> = (0..20).collect();
    for sweep in Sweep::ALL {
        let made: BTreeSet<Vec<u8>> =
            (0..sweep.count(&right)).map(|index| sweep.proposal(&right, index)).collect();
        assert_eq!(made.len(), sweep.count(&right), "{}", sweep.name());
        assert_eq!(made.contains(&right), sweep == Sweep::Cuts);
    }
    assert_eq!(Sweep::Cuts.count(&right), 21);
    assert_eq!(Sweep::Bytes.count(&right), 20 * 255);
}

/// 1 if two replies to some attack lead to one position.
fn replies_to_one_position(task: &Task, solution: &Solution) -> u64 {
    let mut tally = Tally::default();
    tally.add_features(task, solution);
    tally.get("replies:to-one-position")
}

/// Verdict, rounds, positions and the certificate's length stay.
fn doubled_edges() {
    let mut seen = Tally::default();
    for task in tasks(160, 1200) {
        let with_doubles = doubled(task.clone());
        assert_eq!(read(&write(&with_doubles)).as_ref(), Ok(&with_doubles));
        for rules in Rules::ALL {
            let (plain, double) = (solve(rules, &task), solve(rules, &with_doubles));
            assert!(plain.entries == double.entries && plain.verdict == double.verdict);
            assert_eq!(plain.certificate.len(), double.certificate.len());
            let counts = [(&task, &plain), (&with_doubles, &double)]
                .map(|(task, solution)| replies_to_one_position(task, solution));
            assert!(counts[0] <= counts[1]);
            let edges = |t: &Task| t.left.edges.len() + t.right.edges.len();
            let grown = if edges(&with_doubles) > edges(&task) { "more" } else { "as many" };
            seen.add(format!("{grown} edges, to one position {counts:?}"));
        }
    }
    print!("{}", seen.table());
    assert!(seen.get("more edges, to one position [0, 1]") >= 300);
    assert_eq!(seen.get("as many edges, to one position [0, 1]"), 0);
}

fn stated_sizes() {
    let solved =
        |name, sizes: &[usize]| solve(Rules::TWO_WAY, &family(name, sizes).expect("a family"));
    for positions in [1, 2, 3, 9, 210, 1547, 3999, 4000, 4001] {
        let solution = solved("exact", &[positions]);
        assert_eq!(solution.entries.len(), positions);
        assert_eq!(solution.verdict, Verdict::Equal);
    }
    // 16 looping states and the start are one state too many.
    assert!(family("exact", &[1040]).is_err());
    let solution = solved("rings-fresh", &[5, 4, 2]);
    assert_eq!((solution.verdict, solution.rounds), (Verdict::Differ, 7));
    assert!(solution.entries.len() > 100);
}

/// Both readers hold nothing at the start, so that no number need have been
/// seen; and all sizes from there on are reached.
fn filled_from_nothing() {
    for (name, sizes) in
        [("filling", &[6, 2]), ("filling-equal", &[6, 2]), ("filling-equal", &[4, 3])]
    {
        let task = family(name, sizes).expect("a family");
        assert_eq!(task.held_at_start(), 0);
        for task in [stating(task.clone(), 0).expect("nothing is held"), task] {
            assert_eq!(read(&write(&task)).as_ref(), Ok(&task));
            for rules in Rules::ALL {
                let solution = solve(rules, &task);
                let sizes: BTreeSet<u8> = solution.entries.iter().map(|(p, _)| p.history).collect();
                assert!(sizes.into_iter().eq(task.history()..=13), "{name}");
                let is_kept = name == "filling-equal" || rules == Rules::ONE_WAY;
                assert_eq!(solution.verdict, rules.verdict(is_kept), "{name}");
            }
        }
    }
    // One state too many, and no edge left that writes.
    assert!(family("filling", &[13, 4]).is_err() && family("filling-equal", &[13, 4]).is_err());
    assert!(family("filling-equal", &[11, 5]).is_err() && family("filling", &[0, 1]).is_err());
}

/// The records of a byte string, the last one as far as it goes; up to a kind
/// that does not exist.
fn split_records(mut bytes: &[u8]) -> Vec<&[u8]> {
    let mut list = Vec::new();
    while let Some(length) = bytes.first().and_then(|&kind| body_length(kind)) {
        let (record, rest) = bytes.split_at((1 + length).min(bytes.len()));
        list.push(record);
        bytes = rest;
    }
    list
}

/// What is wrong with the history records of a byte string, in words.
fn history_faults(bytes: &[u8]) -> Vec<String> {
    let list = split_records(bytes);
    let kinds: Vec<u8> = list.iter().map(|record| record[0]).collect();
    let Some(place) = kinds.iter().position(|&kind| kind == HISTORY) else {
        return Vec::new();
    };
    let refusal = read(bytes).err().map_or(0, |r| r.0);
    let end = kinds.iter().position(|&kind| kind == END);
    let mut found = Vec::new();
    match list[place].get(1) {
        None => found.push(format!("cut, {refusal}")),
        Some(14..) => found.push(format!("above 13, {refusal}")),
        Some(..=12) if refusal == 15 => found.push("below the held numbers".to_string()),
        _ => {}
    }
    if kinds[place + 1..].contains(&HISTORY) {
        found.push(format!("twice, {refusal}"));
    }
    if kinds[place + 1..].contains(&PAIR) {
        found.push(format!("before a pair, {refusal}"));
    }
    if end.is_some_and(|end| end < place) {
        found.push(format!("after the end, {refusal}"));
    }
    found
}

fn damaged_histories() {
    let mut seen = Tally::default();
    for index in 0..4000 {
        let bytes = item_of_kind(21, index, ItemKind::Damaged).bytes;
        history_faults(&bytes).into_iter().for_each(|fault| seen.add(fault));
    }
    print!("{}", seen.table());
    for fault in [
        "cut, 2",
        "above 13, 15",
        "below the held numbers",
        "twice, 3",
        "before a pair, 3",
        "after the end, 3",
    ] {
        assert!(seen.get(fault) >= 20, "{fault}");
    }
}

fn valid_families() {
    for (name, sizes, _) in FAMILIES {
        let sizes = vec![3; sizes.split(' ').count()];
        let task = family(name, &sizes).expect("a family");
        assert!(read(&write(&task)).is_ok(), "{name}");
    }
    assert!(family("dearest", &[7]).is_err());
    assert!(family("ring", &[17, 2]).is_err());
    assert!(family("nothing", &[]).is_err());
}
