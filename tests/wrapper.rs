//! The Rust wrapper against the reference on generated tasks, in both games.
use nuldopa::{most_certificate_bytes, Acceptance, Game, Record, Refusal, Report, Verdict, ENTRY_LENGTH};
use reference::compare::Solution;
use reference::generate::{families::family, histories::stating, item};
use reference::model::Task;
use reference::rules::Rules;
use reference::{baseline, task, text};

/// A game as the wrapper and as the reference know it.
const GAMES: [(Game, Rules); 2] = [(Game::Equality, Rules::TWO_WAY), (Game::OneWay, Rules::ONE_WAY)];

/// The bytes that a record stands for in a certificate of this verdict.
fn bytes(verdict: Verdict, record: Record) -> Vec<u8> {
    let head = [&[verdict.number()][..], &record.position().bytes()].concat();
    match record {
        Record::Kept { .. } => head,
        Record::Lost { attack, rounds, .. } => {
            let fields = attack.map_or([0; 3], |a| [a.side.number(), a.edge, a.case.number()]);
            [&head[..], &fields, &rounds.to_be_bytes()].concat()
        }
    }
}

fn same_entries(report: &Report, solution: &Solution) -> bool {
    let expected = solution.entries.iter().map(|(p, n)| (p.bytes(), Some(*n).filter(|&n| n != u32::MAX)));
    report.entries().map(|(p, n)| (p.bytes(), n)).eq(expected)
}

/// The report holds what the reference finds, and its certificate is accepted.
fn agrees((game, rules): (Game, Rules), bytes_of_task: &[u8], task: &Task) {
    let solution = baseline::solve(rules, task);
    let report = game.compare_owned(bytes_of_task).expect("not refused");
    assert_eq!((report.verdict.number(), report.rounds), (solution.verdict.kind(), solution.rounds));
    assert_eq!(report.positions(), solution.entries.len());
    assert!(same_entries(&report, &solution));
    assert_eq!(report.certificate, solution.certificate);
    let records = report.records().flat_map(|record| bytes(report.verdict, record));
    assert_eq!(records.collect::<Vec<u8>>(), solution.certificate);
    let accepted = Acceptance { verdict: report.verdict, rounds: report.rounds };
    assert_eq!(game.check(bytes_of_task, &report.certificate), Ok(accepted));
    records_within_entries(&report);
    assert_eq!(length_with_less(game, bytes_of_task, report.positions(), 0), Ok(solution.certificate.len()));
}

/// The certificate's length, or the refusal, with as many entries as positions, and so many bytes less than are always enough.
fn length_with_less(game: Game, task: &[u8], positions: usize, less: usize) -> Result<usize, Refusal> {
    let mut table = vec![0; positions * ENTRY_LENGTH];
    let mut certificate = vec![0; most_certificate_bytes(table.len()) - less];
    game.compare(task, &mut table, &mut certificate).map(|found| found.length)
}

/// A certificate has no more records than there are positions that it can list.
fn records_within_entries(report: &Report) {
    let lost = report.entries().filter(|(_, rounds)| rounds.is_some()).count();
    let listed = if report.verdict.keeps() { report.positions() - lost } else { lost };
    assert!(report.records().count() <= listed);
}

/// What `compare` or `compare_one_way` prints, from a report.
fn printed(report: &Report) -> String {
    let head = format!("{} {} {}\n", report.verdict, report.positions(), report.rounds);
    report.records().fold(head, |lines, record| format!("{lines}{record}\n"))
}

/// The same answer to a task that may be refused.
fn answers_alike(played: (Game, Rules), bytes: &[u8]) {
    match task::read(bytes) {
        Ok(task) => agrees(played, bytes, &task),
        Err(refusal) => {
            assert_eq!(played.0.compare_owned(bytes).map_err(|r| r.number()), Err(refusal.0));
            assert_eq!(played.0.check(bytes, &[]).map_err(|r| r.number()), Err(refusal.0));
        }
    }
}

/// Every second task is compared in both games.
#[test]
fn generated_tasks() {
    for index in 0..3000 {
        let bytes = item(21, index).bytes;
        let games = if index % 2 == 0 { &GAMES[..] } else { &GAMES[..1] };
        games.iter().for_each(|&played| answers_alike(played, &bytes));
    }
}

#[test]
fn printed_lines() {
    for index in 0..300 {
        let bytes = item(22, index).bytes;
        for (game, rules) in GAMES {
            if let Ok(report) = game.compare_owned(&bytes) {
                if report.positions() <= text::TABLE_ENTRIES {
                    assert_eq!(printed(&report), text::compare_output_by(rules, &bytes));
                }
            }
        }
    }
}

/// More positions than the first tables hold.
#[test]
fn growing_tables() {
    for (name, sizes) in [("exact", &[1024][..]), ("exact", &[1025]), ("dearest", &[6]), ("dearest-equal", &[5])] {
        let made = family(name, sizes).expect("a family");
        GAMES.into_iter().for_each(|played| agrees(played, &task::write(&made), &made));
    }
}

/// More than the 209 positions of one history size, and than the first table holds.
#[test]
fn growing_histories() {
    let made = stating(family("dearest-equal", &[4]).expect("a family"), 8).expect("as many as its start states hold");
    GAMES.into_iter().for_each(|played| agrees(played, &task::write(&made), &made));
}

/// Where every position is lost and listed, a byte less than is always enough is too little.
#[test]
fn every_position_listed() {
    for sizes in [[2, 1, 1], [9, 6, 3], [14, 6, 3]] {
        let made = family("listed", &sizes).expect("a family");
        let bytes = task::write(&made);
        for (game, rules) in GAMES {
            agrees((game, rules), &bytes, &made);
            let positions = baseline::solve(rules, &made).entries.len();
            assert_eq!(length_with_less(game, &bytes, positions, 0), Ok(positions * 17));
            assert_eq!(length_with_less(game, &bytes, positions, 1), Err(Refusal::BufferTooSmall));
        }
    }
}
