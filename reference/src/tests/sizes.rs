//! Buffer sizes that are known before the job: how long a certificate can be,
//! by the positions reached, and what is lent with that in mind. Lengths are
//! counted here by the bytes that came back, with the papers' own numbers.

use crate::marked::{refused, run_by, stating as with_record, task_1, task_4, task_5, task_6};
use crate::whole::tasks;
use crate::Test;
use reference::baseline;
use reference::compare::{solve, Answer, Solution};
use reference::generate::families::family;
use reference::generate::histories::stating;
use reference::lent::{breach, lend, Choice, Needed, PLAN};
use reference::model::Task;
use reference::random::Random;
use reference::rules::Rules;
use reference::tally::Tally;
use reference::task::{read, write};
use reference::ways::{beside_limit, limit, possible_keys, Way};

pub const TESTS: &[Test] = &[
    ("sizes: certificates of items keep to the positions", || items(Rules::TWO_WAY)),
    ("sizes: certificates of items keep to the positions, one-way", || items(Rules::ONE_WAY)),
    ("sizes: certificates of families keep to the positions", families),
    ("sizes: 17 bytes an entry can be needed", all_listed),
    ("sizes: 10 bytes an entry can be needed", all_kept),
    ("sizes: answers that no task can have", breaches),
    ("sizes: what a given task is lent", planned),
    ("sizes: where the library's ways part", ways_part),
];

/// Records of a certificate, those of kept positions and those of lost ones.
fn records(mut certificate: &[u8]) -> [usize; 2] {
    let mut counts = [0; 2];
    while let Some(kind) = certificate.first() {
        let (place, length) = match kind {
            16 | 18 => (0, 10),
            17 | 19 => (1, 17),
            _ => panic!("kind {kind}"),
        };
        counts[place] += 1;
        certificate = &certificate[length..];
    }
    counts
}

/// Entries of a full table, those of kept positions and those of lost ones.
fn entries(table: &[u8]) -> [usize; 2] {
    let lost = table.chunks(13).filter(|entry| entry[9..] != [0xff; 4]).count();
    [table.len() / 13 - lost, lost]
}

fn lent(solution: &Solution, table: usize, buffer: usize) -> (Answer, Vec<u8>, Vec<u8>) {
    let (mut table, mut buffer) = (vec![0xa5; table], vec![0xa5; buffer]);
    let answer = solution.deliver(&mut table, &mut buffer);
    assert_eq!(breach(&answer, &table, &buffer), None);
    (answer, table, buffer)
}

/// The lengths and numbers that are promised of a verdict; more room is lent
/// than they need. Says what there was to see.
fn assert_within_limits(solution: &Solution) -> String {
    let positions = solution.entries.len();
    let (answer, table, buffer) = lent(solution, 13 * positions, 20 * positions);
    assert_eq!((answer.refusal, answer.positions as usize), (0, positions));
    let length = answer.certificate_length as usize;
    let is_kept = answer.verdict == 1 || answer.verdict == 18;
    assert!(length <= positions * if is_kept { 10 } else { 17 });
    let ([_, lost], [kept_records, lost_records]) = (entries(&table), records(&buffer[..length]));
    assert!(lost_records <= lost);
    match is_kept {
        true if kept_records == positions => "all kept".to_string(),
        true => "some kept".to_string(),
        false if lost_records == positions => "all listed".to_string(),
        false if lost_records < lost => "not all lost ones listed".to_string(),
        false => "all lost ones listed".to_string(),
    }
}

/// With 17 bytes for each whole entry only the table can be too small.
fn assert_never_12(random: &mut Random, solution: &Solution) {
    let positions = solution.entries.len();
    let exact = 13 * positions;
    let (spare, beyond) = (random.between(1, 12), random.between(13, 200));
    let tables = [exact, exact + spare, exact + beyond, exact - spare, random.below(exact), 0];
    for table in tables {
        let entries = table / 13;
        let (answer, ..) = lent(solution, table, 17 * entries);
        let wanted = if entries < positions { 11 } else { 0 };
        assert_eq!(answer.refusal, wanted, "{table} bytes for {positions} positions");
    }
}

fn items(rules: Rules) {
    let mut random = Random::new(131);
    let mut seen = Tally::default();
    for task in tasks(130, 3000) {
        let solution = solve(rules, &task);
        seen.add(assert_within_limits(&solution));
        assert_never_12(&mut random, &solution);
    }
    print!("{}", seen.table());
    for what in
        ["all kept", "some kept", "all listed", "all lost ones listed", "not all lost ones listed"]
    {
        assert!(seen.get(what) >= 50, "{what}");
    }
}

/// Families with all that they can come to, some of them with a history.
const SIZED: [(&str, &[usize]); 17] = [
    ("dearest", &[4]),
    ("dearest-equal", &[4]),
    ("ring", &[3, 4]),
    ("ring-equal", &[4, 3]),
    ("ring-late", &[5, 3]),
    ("chain", &[16]),
    ("rings", &[16, 15]),
    ("rings-fresh", &[5, 4, 2]),
    ("listed", &[5, 3, 2]),
    ("listed", &[7, 6, 3]),
    ("listed", &[16, 2, 2]),
    ("exact", &[210]),
    ("forks", &[4, 2]),
    ("forks-late", &[5, 3]),
    ("filling", &[4, 2]),
    ("filling-equal", &[3, 2]),
    ("last", &[16, 15]),
];

/// Without a history record, and with the sizes that fit among 0, 6, 8 and 12.
fn sized_families() -> Vec<Task> {
    let mut list = Vec::new();
    for (name, sizes) in SIZED {
        let task = family(name, sizes).expect("a family");
        let sizes = [0, 6, 8, 12].into_iter();
        list.extend(sizes.filter_map(|size| stating(task.clone(), size).ok()));
        list.push(task);
    }
    list
}

fn families() {
    let mut random = Random::new(132);
    for task in sized_families() {
        for rules in Rules::ALL {
            let solution = baseline::solve(rules, &task);
            assert_within_limits(&solution);
            assert_never_12(&mut random, &solution);
        }
    }
}

/// So many bytes for each position are just enough, with spare bytes at the
/// table's end too; and one less are 12.
fn assert_needed(rules: Rules, task: &[u8], verdict: u32, record: usize) {
    let positions = solve(rules, &read(task).expect("a task")).entries.len();
    let needed = record * positions;
    for spare in [0, 12] {
        let (answer, ..) = run_by(rules, task, 13 * positions + spare, needed);
        assert_eq!((answer.refusal, answer.verdict), (0, verdict));
        let returned = (answer.positions as usize, answer.certificate_length as usize);
        assert_eq!(returned, (positions, needed));
        let (answer, table, buffer) = run_by(rules, task, 13 * positions + spare, needed - 1);
        assert_eq!(answer, refused(12));
        assert!(table.iter().all(|&b| b == 0) && buffer.iter().all(|&b| b == 0xa5));
    }
    // An entry more than is needed makes up for the byte.
    let (answer, ..) = run_by(rules, task, 13 * (positions + 1), 17 * (positions + 1) - 1);
    assert_eq!((answer.refusal, answer.verdict), (0, verdict));
}

fn all_listed() {
    let mut list = vec![task_4(), task_6(), with_record(task_4(), 2), with_record(task_6(), 0)];
    for (sizes, histories) in
        [(&[2, 1, 1], &[2, 3][..]), (&[6, 4, 2], &[8, 10]), (&[9, 6, 3], &[12]), (&[14, 6, 3], &[])]
    {
        let task = family("listed", sizes).expect("a family");
        let stated = histories.iter().map(|&size| stating(task.clone(), size).expect("it fits"));
        list.extend(stated.map(|task| write(&task)));
        list.push(write(&task));
    }
    for task in list {
        assert_needed(Rules::TWO_WAY, &task, 2, 17);
        assert_needed(Rules::ONE_WAY, &task, 19, 17);
    }
}

fn all_kept() {
    let mut list = vec![task_1(), task_5(), with_record(task_1(), 0), with_record(task_5(), 1)];
    for (name, sizes) in [("dearest-equal", &[3][..]), ("ring-equal", &[4, 2]), ("exact", &[210])] {
        list.push(write(&family(name, sizes).expect("a family")));
    }
    for task in list {
        assert_needed(Rules::TWO_WAY, &task, 1, 10);
        assert_needed(Rules::ONE_WAY, &task, 18, 10);
    }
}

/// Answers that keep to the limits, and then the same with one thing wrong.
fn breaches() {
    let answer = |verdict, positions, certificate_length| Answer {
        verdict,
        positions,
        certificate_length,
        ..Answer::default()
    };
    // Two entries, of one position that is lost and one that is not.
    let table: Vec<u8> = [[1; 9].as_slice(), &[0; 4], &[2; 9], &[0xff; 4], &[0; 5]].concat();
    let found = |answer: Answer| breach(&answer, &table, &[0; 100]).is_some();
    for (verdict, longest) in [(1, 20), (18, 20), (2, 17), (19, 17)] {
        assert!(!found(answer(verdict, 2, longest)), "{verdict}");
        let record = if longest == 20 { 1 } else { 17 };
        assert!(found(answer(verdict, 2, longest + record)), "{verdict}");
    }
    // Two entries of lost positions, where the length alone is the limit.
    let lost = [1; 26];
    assert_eq!(breach(&answer(2, 2, 34), &lost, &[]), None);
    assert!(breach(&answer(2, 2, 35), &lost, &[]).is_some());
    assert!(breach(&answer(19, 1, 18), &lost, &[]).is_some());
    for (table, buffer, wanted) in
        [(26, 34, true), (38, 34, true), (39, 34, false), (26, 33, false), (12, 0, true)]
    {
        let (table, buffer) = (vec![0; table], vec![0; buffer]);
        assert_eq!(breach(&refused(12), &table, &buffer).is_some(), wanted);
        assert_eq!(breach(&refused(11), &table, &buffer), None);
        assert_eq!(breach(&refused(7), &table, &buffer), None);
    }
}

/// Refusals and words of one round of the plan.
fn planned_round(seed: u64, task: &Task, solution: &Solution) -> Tally {
    let mut seen = Tally::default();
    let mut random = Random::new(seed);
    for turn in 0..PLAN.len() as u64 {
        let chosen = lend(&mut random, Choice::Turn(turn), Needed::of(task, solution));
        let (answer, ..) = lent(solution, chosen.table, chosen.buffer);
        seen.add(format!("refusal:{}", answer.refusal));
        seen.add(format!("table:{}", chosen.table_word));
        seen.add(format!("buffer:{}", chosen.buffer_word));
        seen.add_limits(solution, chosen.table, chosen.buffer);
        seen.add_way(task, chosen.table, answer.refusal);
    }
    seen
}

/// Whatever the task and the seed: verdicts, both refusals, every choice,
/// and both sides of the limit where there is one.
fn planned() {
    for (number, task) in sized_families().into_iter().enumerate() {
        for rules in Rules::ALL {
            let solution = baseline::solve(rules, &task);
            let seen = planned_round(number as u64, &task, &solution);
            let table = seen.table();
            let counts = ["0", "11", "12"].map(|n| seen.get(&format!("refusal:{n}")));
            assert!(counts[0] >= 5 && counts[1] >= 3 && counts[2] >= 3, "{table}");
            let has_limit = Needed::of(&task, &solution).has_limit();
            let choices = if has_limit { 9 } else { 6 };
            assert_eq!(table.matches("table:").count(), choices, "{table}");
            let beside = ["at", "below", "above"].map(|side| seen.get(&format!("limit:{side}")));
            assert_eq!(beside.iter().all(|&n| n >= 1), has_limit, "{table}");
            assert_eq!(table.matches("buffer:").count(), 7, "{table}");
            for (all, limit) in [("listed:all", "limit-17"), ("kept:all", "limit-10")] {
                let sides = ["met", "one-less"].map(|side| seen.get(&format!("{limit}:{side}")));
                let in_every_case = seen.get(all) == PLAN.len() as u64;
                assert_eq!(in_every_case, sides[0] >= 1 && sides[1] >= 1, "{table}");
            }
        }
    }
}

/// Keys and limits by hand: states, partners in base 8, sizes up to 13; the
/// least number of entries that have 40 bits for each of them.
fn ways_part() {
    for (name, sizes, history, keys, entries) in [
        ("dearest", &[0][..], None, 1, 1),
        ("dearest", &[6], None, 262_144, 6_554),
        ("dearest", &[4], Some(8), 4_096 * 6, 615),
        ("rings", &[5, 5], None, 5 * 5 * 8, 5),
        ("last", &[16, 15], None, 240, 6),
        ("last", &[16, 16], Some(0), 256 * 14, 90),
        ("rings-fresh", &[16, 12, 3], None, 16 * 12 * 512, 2_458),
        ("forks", &[3, 2], Some(13), 4 * 4 * 262_144, 104_858),
        ("filling-equal", &[13, 3], Some(0), 16 * 16 * 512 * 14, 45_876),
    ] {
        let task = family(name, sizes).expect("a family");
        let stated = history.map(|size| stating(task.clone(), size).expect("it fits"));
        let task = stated.unwrap_or(task);
        assert_eq!((possible_keys(&task), limit(&task)), (keys, entries), "{name}");
        let seen = |table| (Way::of(&task, table), beside_limit(&task, table));
        let exact = 13 * entries;
        assert_eq!(seen(exact), (Way::Bits, Some("at")));
        assert_eq!(seen(exact + 12), (Way::Bits, Some("at")));
        assert_eq!(seen(exact + 13), (Way::Bits, Some("above")));
        assert_eq!(seen(exact + 26), (Way::Bits, None));
        assert_eq!(seen(exact - 1), (Way::Chains, Some("below")));
        assert_eq!(seen(exact - 13), (Way::Chains, Some("below")));
        assert!(entries == 1 || seen(exact - 14) == (Way::Chains, None));
    }
}
