//! The differential runner against the reference's own adapter and program,
//! and that it reports what is wrong.

use crate::Test;
use reference::check::CheckAnswer;
use reference::frames::Response;
use reference::rules::Rules;
use std::path::{Path, PathBuf};
use std::process::Command;

pub const TESTS: &[Test] = &[
    ("runner: adapter gives the same answers", same_answers),
    ("runner: adapter gives the same answers, one-way", same_answers_one_way),
    ("runner: program gives the same lines", same_lines),
    ("runner: one kind of proposed certificates", one_proposal),
    ("runner: an answer by the other game is reported", other_game),
    ("runner: a given task", given_task),
    ("runner: a given task at the limit of its buffer", at_the_limit),
    ("runner: replies of a given task are counted", counted_replies),
    ("runner: an answer that no task can have is named", named_breaches),
    ("generator: a family with a stated history", stated_family),
    ("runner: every cut and every byte of a certificate", swept_certificate),
    ("runner: each altered answer is reported", faults),
    ("runner: a saved request can be asked again", saved_request),
    ("runner: a missing count is reported", missing_count),
    ("runner: a partner that fails is reported", failing_partner),
];

pub fn built(name: &str) -> PathBuf {
    let tests = std::env::current_exe().expect("own path");
    tests.parent().expect("a directory").join(name)
}

fn save_directory() -> PathBuf {
    built("mismatches")
}

/// Exit status and output of the runner.
fn runner(arguments: &[&str], command: &[&Path]) -> (Option<i32>, String) {
    let output = Command::new(built("reference-runner"))
        .args(arguments)
        .arg("--save")
        .arg(save_directory())
        .arg("--")
        .args(command)
        .output()
        .expect("the runner runs");
    (output.status.code(), String::from_utf8_lossy(&output.stdout).into_owned())
}

/// 3,000 cases, with these counts and each of the refusals 1 to 10 and 15.
fn assert_same(operation: &str, counts: &[&str]) {
    let read = (1..=10).chain([15]);
    let refusals: Vec<String> = read.map(|n| format!("refusal:{n}:10")).collect();
    let mut arguments = vec![operation, "--seed", "11", "--count", "3000"];
    let required = refusals.iter().map(|s| s.as_str()).chain(counts.iter().copied());
    for key in required {
        arguments.extend(["--require", key]);
    }
    let (status, text) = runner(&arguments, &[&built("reference-adapter")]);
    assert_eq!(status, Some(0), "{text}");
    assert!(text.ends_with("SAME: 3000 cases, 0 mismatches, 0 counts too small\n"), "{text}");
}

const SIZES: [&str; 22] = [
    "refusal:11:50",
    "refusal:12:50",
    "rounds:15+:10",
    "table:one-less:50",
    "table:zero:50",
    "table:spare:50",
    "buffer:exact:50",
    "buffer:17-an-entry:50",
    "buffer:17-an-entry-less-one:50",
    "listed:all:50",
    "kept:all:50",
    "limit-17:met:20",
    "limit-17:one-less:20",
    "limit-10:met:20",
    "limit-10:one-less:20",
    "way:bits:200",
    "way:chains:300",
    "limit:at:100",
    "limit:below:100",
    "limit:above:100",
    "limit:at:not-11:50",
    "limit:below:not-11:50",
];

const REPLIES: [&str; 4] = [
    "replies:first-above-0:1000",
    "replies:to-one-position:300",
    "certificate-replies:first-above-0:300",
    "certificate-replies:to-one-position:20",
];

fn same_answers() {
    assert_same("read", &["refusal:0:500"]);
    let verdicts = ["verdict:EQUAL:300", "answer:EQUAL:100", "answer:DIFFER:100"];
    assert_same("compare", &[&SIZES[..], &REPLIES, &verdicts].concat());
    assert_same(
        "check",
        &["refusal:13:300", "refusal:14:300", "verdict:EQUAL:100", "verdict:DIFFER:100"],
    );
}

fn same_answers_one_way() {
    let verdicts = ["answer:FOLLOWS:100", "answer:FALLS-SHORT:100", "beside:DIFFER-but-kept:300"];
    assert_same("compare-one-way", &[&SIZES[..], &REPLIES, &verdicts].concat());
    assert_same(
        "check-one-way",
        &[
            "refusal:13:300",
            "refusal:14:300",
            "verdict:FOLLOWS:100",
            "verdict:FALLS-SHORT:100",
            "proposal:other-kinds:50",
            "proposal:other-rules:50",
        ],
    );
}

fn same_lines() {
    let program = built("reference-compare");
    let one_way = Path::new("--one-way");
    for (operation, command, verdict) in [
        ("program", &[program.as_path()][..], "verdict:DIFFER:100"),
        ("program-one-way", &[&program, one_way], "verdict:FALLS-SHORT:100"),
    ] {
        let arguments = [operation, "--seed", "12", "--count", "600"];
        let required = ["--require", "too-long:3", "--require", verdict];
        let (status, text) = runner(&[&arguments[..], &required].concat(), command);
        assert_eq!(status, Some(0), "{text}");
    }
}

fn one_proposal() {
    for operation in ["check", "check-one-way"] {
        let arguments = [operation, "--seed", "17", "--count", "300", "--kind", "near"];
        let required = ["--proposal", "other-kinds", "--require", "refusal:13:300"];
        let all = [&arguments[..], &required].concat();
        let (status, text) = runner(&all, &[&built("reference-adapter")]);
        assert_eq!(status, Some(0), "{text}");
    }
    let unknown = ["check", "--proposal", "no-such-kind"];
    assert_eq!(runner(&unknown, &[&built("reference-adapter")]).0, Some(2));
}

/// A program that plays the other game, and an answer to the other question:
/// the numbers of a refusal are the same, but not the first byte.
fn other_game() {
    let arguments = ["program-one-way", "--seed", "12", "--count", "60", "--kind", "near"];
    let (status, text) = runner(&arguments, &[&built("reference-compare")]);
    assert_eq!(status, Some(1), "{text}");
    assert!(text.contains("5 mismatches"), "{text}");
    let answer = CheckAnswer { refusal: 13, ..CheckAnswer::default() };
    let [two, one] = Rules::ALL.map(|rules| Response::Check { rules, answer }.payload());
    assert_eq!((two[0], one[0], &two[1..]), (3, 5, &one[1..]));
    assert_ne!(Response::from_payload(&two), Response::from_payload(&one));
}

/// What the generator's program says to `family`, and its exit status.
fn family(arguments: &[&str]) -> (Option<i32>, Vec<u8>) {
    let mut program = Command::new(built("reference-generate"));
    let output = program.arg("family").args(arguments).output().expect("the generator runs");
    (output.status.code(), output.stdout)
}

/// The file name of a family's task.
pub fn family_file(arguments: &[&str]) -> String {
    let (status, task) = family(arguments);
    assert_eq!(status, Some(0), "{arguments:?}");
    let file = built(&format!("{}.task", arguments.join("-")));
    std::fs::write(&file, task).expect("a file");
    file.to_string_lossy().into_owned()
}

/// Each side holds one number at the start, the same one, so 1 is the least.
fn stated_family() {
    let (status, plain) = family(&["chain", "5"]);
    assert_eq!(status, Some(0));
    for size in ["1", "2", "12", "13"] {
        let (status, stated) = family(&["chain", "5", "--history", size]);
        assert_eq!(status, Some(0));
        let (models, end) = stated.split_at(plain.len() - 1);
        assert_eq!(models, &plain[..plain.len() - 1]);
        assert_eq!(end, [5, size.parse().expect("a size"), 15]);
    }
    for size in ["0", "14", "256", "many"] {
        assert_eq!(family(&["chain", "5", "--history", size]), (Some(2), Vec::new()), "{size}");
    }
}

fn given_task() {
    let name = family_file(&["dearest-equal", "4"]);
    let arguments =
        ["compare", "--count", "40", "--task", &name, "--require", "positions:100-999:40"];
    let (status, text) = runner(&arguments, &[&built("reference-adapter")]);
    assert_eq!(status, Some(0), "{text}");
    let name = family_file(&["dearest-equal", "3", "--history", "6"]);
    let arguments = ["compare", "--count", "40", "--task", &name];
    let (status, text) = runner(
        &[&arguments[..], &["--require", "history:held:EQUAL:40"]].concat(),
        &[&built("reference-adapter")],
    );
    assert_eq!(status, Some(0), "{text}");
    // All positions fit the program's table, and the certificate is too long.
    let name = family_file(&["listed", "14", "6", "3"]);
    let arguments = ["program", "--count", "1", "--task", &name, "--require", "refusal:12:1"];
    let (status, text) = runner(&arguments, &[&built("reference-compare")]);
    assert_eq!(status, Some(0), "{text}");
}

/// Every position of these tasks is listed. Whatever the seed, 15 cases have
/// a verdict with just 17 bytes for each, and 12 with one byte less.
fn at_the_limit() {
    let plain = family_file(&["listed", "6", "4", "2"]);
    let stated = family_file(&["listed", "9", "6", "3", "--history", "12"]);
    let counts = ["refusal:0:5", "refusal:11:3", "refusal:12:3", "listed:all:15"];
    let limits = ["limit-17:met:4", "limit-17:one-less:3"];
    for operation in ["compare", "compare-one-way"] {
        for (name, seed) in [(&plain, "1"), (&plain, "2"), (&stated, "1"), (&stated, "2")] {
            let mut arguments = vec![operation, "--task", name, "--seed", seed, "--count", "15"];
            counts.iter().chain(&limits).for_each(|key| arguments.extend(["--require", key]));
            let (status, text) = runner(&arguments, &[&built("reference-adapter")]);
            assert_eq!(status, Some(0), "{text}");
        }
    }
    // A case is lent the same if it comes alone.
    for (first, key) in [("3", "limit-17:met:1"), ("12", "limit-17:one-less:1")] {
        let one = ["compare", "--task", &plain, "--first", first, "--count", "1", "--require", key];
        let (status, text) = runner(&one, &[&built("reference-adapter")]);
        assert_eq!(status, Some(0), "{text}");
    }
}

/// Every attack of these families has replies to one position, and none of
/// them is edge 0. Only the certificate of the late one lists attacks.
fn counted_replies() {
    let [late, equal] = ["forks-late", "forks"].map(|name| family_file(&[name, "5", "2"]));
    for operation in ["compare", "compare-one-way"] {
        for (name, word, wanted) in [
            (&late, "replies", 0),
            (&late, "certificate-replies", 0),
            (&equal, "replies", 0),
            (&equal, "certificate-replies", 1),
        ] {
            let mut arguments = vec![operation, "--task", name, "--count", "15"];
            let keys = ["first-above-0", "to-one-position"].map(|sort| format!("{word}:{sort}:15"));
            keys.iter().for_each(|key| arguments.extend(["--require", key]));
            let (status, text) = runner(&arguments, &[&built("reference-adapter")]);
            assert_eq!(status, Some(wanted), "{text}");
        }
    }
}

/// The first case has a verdict and the longest certificate, the second one
/// meets 11 with a table of no entry.
fn named_breaches() {
    let name = family_file(&["listed", "5", "3", "2"]);
    for (fault, what) in [
        ("length", "there is never a certificate too long for the positions reached"),
        ("refusal:1", "there is never 12 with 17 bytes or more an entry"),
    ] {
        let arguments = ["compare", "--task", &name, "--count", "15", "--fault", fault];
        let (status, text) = runner(&arguments, &[&built("reference-adapter")]);
        assert_eq!(status, Some(1), "{text}");
        assert!(text.contains(what) && text.contains(" 15 cases, 1 mismatches,"), "{text}");
    }
}

fn swept_certificate() {
    // 3 rounds, so 4 records of 17 bytes.
    let name = family_file(&["chain", "4"]);
    let stated = family_file(&["chain", "4", "--history", "3"]);
    for (operation, name, sweep, cases, required) in [
        ("check", &name, "cuts", 69, ["refusal:0:1", "refusal:14:4", "refusal:13:64"]),
        (
            "check",
            &name,
            "bytes",
            68 * 255,
            ["refusal:0:200", "refusal:14:4000", "refusal:13:2000"],
        ),
        (
            "check",
            &stated,
            "bytes",
            68 * 255,
            ["refusal:0:200", "refusal:14:4000", "refusal:13:2000"],
        ),
        // FOLLOWS, so 4 records of 10 bytes.
        ("check-one-way", &name, "cuts", 41, ["refusal:0:1", "refusal:14:4", "refusal:13:36"]),
    ] {
        let mut arguments = vec![operation, "--task", name, "--sweep", sweep];
        required.iter().for_each(|key| arguments.extend(["--require", key]));
        let (status, text) = runner(&arguments, &[&built("reference-adapter")]);
        assert_eq!(status, Some(0), "{text}");
        assert!(text.contains(&format!("SAME: {cases} cases, ")), "{text}");
    }
    // It needs a task that is not refused, and certificates to check.
    let without_task = ["check", "--sweep", "cuts"];
    let comparing = ["compare", "--task", &name, "--sweep", "cuts"];
    for arguments in [&without_task[..], &comparing] {
        assert_eq!(runner(arguments, &[&built("reference-adapter")]).0, Some(2));
    }
}

fn faults() {
    let compared = ["refusal", "verdict", "positions", "rounds", "length", "table", "buffer"];
    let checked = ["refusal", "verdict", "rounds"];
    for (operation, names) in [
        ("read", &["refusal", "dump"][..]),
        ("compare", &compared),
        ("check", &checked),
        ("program", &["text"]),
        ("compare-one-way", &compared),
        ("check-one-way", &checked),
    ] {
        let partner =
            if operation == "program" { "reference-compare" } else { "reference-adapter" };
        for name in names {
            for from in ["", ":17"] {
                let fault = format!("{name}{from}");
                let arguments = [
                    operation, "--seed", "13", "--count", "60", "--kind", "near", "--fault", &fault,
                ];
                let (status, text) = runner(&arguments, &[&built(partner)]);
                assert_eq!(status, Some(1), "{operation} {fault}: {text}");
                assert!(text.contains("MISMATCH") && text.contains("  partner:"), "{text}");
                assert!(text.contains(" 60 cases, 1 mismatches,"), "{text}");
            }
        }
    }
}

/// The saved frame, given to the adapter, gets an answer; and the saved task
/// is the item's.
fn saved_request() {
    let arguments = ["compare", "--seed", "14", "--count", "1", "--fault", "rounds"];
    let (status, _) = runner(&arguments, &[&built("reference-adapter")]);
    assert_eq!(status, Some(1));
    let directory = save_directory();
    let task = std::fs::read(directory.join("mismatch-compare-14-0.task")).expect("saved task");
    assert_eq!(task, reference::generate::item(14, 0).bytes);
    let saved =
        std::fs::read(directory.join("mismatch-compare-14-0.request")).expect("saved request");
    let payload =
        reference::frames::read_frame(&mut &saved[..]).expect("a frame").expect("a frame");
    let request = reference::frames::Request::from_payload(&payload).expect("a request");
    assert_eq!(request.task(), task);
}

fn missing_count() {
    let arguments = ["read", "--seed", "15", "--count", "20", "--require", "refusal:7:21"];
    let (status, text) = runner(&arguments, &[&built("reference-adapter")]);
    assert_eq!(status, Some(1));
    assert!(text.contains("TOO FEW refusal:7: "), "{text}");
}

fn failing_partner() {
    let base = ["compare", "--seed", "16", "--count", "20", "--timeout", "1"];
    // One that ends at once, one that answers with other bytes.
    for command in [&["false"][..], &["cat"]] {
        let command: Vec<&Path> = command.iter().map(Path::new).collect();
        let (status, text) = runner(&base, &command);
        assert_eq!(status, Some(1), "{text}");
        assert!(text.contains("no answer"), "{text}");
    }
    // One that never answers.
    let (status, text) = runner(&base, &[Path::new("sleep"), Path::new("20")]);
    assert_eq!(status, Some(1), "{text}");
    // A program that prints something else.
    let (status, text) = runner(&["program", "--count", "5"], &[Path::new("cat")]);
    assert_eq!(status, Some(1), "{text}");
    assert!(text.contains("5 mismatches"), "{text}");
    // A command that does not exist cannot run.
    let (status, _) = runner(&base, &[Path::new("./no-such-adapter")]);
    assert_eq!(status, Some(2));
}
