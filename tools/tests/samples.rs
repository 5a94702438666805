//! Both programs on every sample (samples/list.txt).
use crate::programs::{self, Printed, COMPARE, EXPLAIN, TASKTEXT};
use crate::tally::{same, Tally};
use std::path::Path;

/// The list has so many samples at least.
const LEAST: usize = 10;
/// Samples whose explanation in the one-way game is in tools/expected, as NAME-one-way.txt. Of the others it tells what that
/// of the other game tells, after another first line.
const ONE_WAY: [&str; 4] = [
    "case-06",
    "case-06-exchanged",
    "case-11",
    "case-11-exchanged",
];

struct Sample {
    name: String,
    /// The first lines of compare's and compare_one_way's output, as the list states them.
    stated: String,
    stated_one_way: String,
    file: String,
}

fn samples() -> Result<Vec<Sample>, String> {
    let list = programs::text(Path::new("samples/list.txt"))?;
    let rows = list.lines().filter(|line| !line.starts_with('#'));
    let sample = |row: &str| {
        let mut columns = row.split('|').map(str::trim);
        let name = columns.next()?.to_string();
        let mut next = || columns.next().map(str::to_string);
        let (stated, stated_one_way) = (next()?, next()?);
        let file = format!("samples/{name}.task");
        Some(Sample {
            name,
            stated,
            stated_one_way,
            file,
        })
    };
    Ok(rows.filter_map(sample).collect())
}

pub fn run(tally: &mut Tally) -> Result<(), String> {
    let samples = samples()?;
    let enough = same("the list has samples", samples.len() >= LEAST, true);
    tally.check("samples", enough);
    for sample in &samples {
        tally.check(&format!("text of {}", sample.name), converted(sample));
        tally.check(&format!("explain {}", sample.name), explained(sample));
        tally.check(
            &format!("explain {} one way", sample.name),
            explained_one_way(sample),
        );
    }
    tally.check("tools/README.md", shown_in_readme());
    Ok(())
}

/// The document shows the text of case 2 and the explanation of case 11 as they are.
fn shown_in_readme() -> Result<(), String> {
    let readme = programs::text(Path::new("tools/README.md"))?;
    let lines = readme.lines().map(|line| line.strip_prefix("    "));
    let shown: String = lines
        .map(|line| line.unwrap_or_default().to_owned() + "\n")
        .collect();
    let task = programs::read(Path::new("samples/case-02.task"))?;
    let text = programs::run(TASKTEXT, &["text"], &task)?.out;
    let text = String::from_utf8_lossy(&text).into_owned();
    same("the text in it", shown.contains(&text), true)?;
    let explanation = programs::text(Path::new("tools/expected/case-11.txt"))?;
    same("the explanation in it", shown.contains(&explanation), true)
}

/// Bytes to text to bytes, and on to the same text; or the stated refusal.
fn converted(sample: &Sample) -> Result<(), String> {
    let bytes = programs::read(Path::new(&sample.file))?;
    let text = programs::run(TASKTEXT, &["text"], &bytes)?;
    if sample.stated.starts_with("REFUSED") {
        let message = format!("{} at byte ", sample.stated);
        same("the status", text.status, Some(1))?;
        same("the output", text.out.len(), 0)?;
        return same("the message", text.errors.starts_with(&message), true);
    }
    same("the status", text.status, Some(0))?;
    let back = programs::run(TASKTEXT, &["bytes"], &text.out)?;
    same("back in bytes", back, Printed::success(&bytes))?;
    let again = programs::run(TASKTEXT, &["text"], &bytes)?;
    same("the text again", again, text)
}

/// The explanation in tools/expected, of the stated verdict; or the stated refusal.
fn explained(sample: &Sample) -> Result<(), String> {
    let text = explanation(sample, &[], &sample.stated)?;
    match text {
        Some(text) => as_expected(&sample.name, text),
        None => Ok(()),
    }
}

/// The same in the one-way game, where it is in tools/expected.
fn explained_one_way(sample: &Sample) -> Result<(), String> {
    let text = explanation(sample, &["--one-way"], &sample.stated_one_way)?;
    match text {
        Some(text) if ONE_WAY.contains(&&sample.name[..]) => {
            as_expected(&format!("{}-one-way", sample.name), text)
        }
        _ => Ok(()),
    }
}

fn as_expected(name: &str, text: String) -> Result<(), String> {
    let expected = programs::text(Path::new(&format!("tools/expected/{name}.txt")))?;
    same("the explanation", text, expected)
}

/// The explanation of the certificate that the reference writes with these options, if it is of the stated verdict; nothing
/// where the task is refused as stated.
fn explanation(sample: &Sample, options: &[&str], stated: &str) -> Result<Option<String>, String> {
    let certificate = programs::file(&format!("{}.certificate", sample.name), b"")?;
    let task = programs::read(Path::new(&sample.file))?;
    let arguments = [options, &["--certificate", &certificate]].concat();
    programs::run(COMPARE, &arguments, &task)?;
    let printed = programs::run(EXPLAIN, &[&sample.file, &certificate], b"")?;
    let text = String::from_utf8_lossy(&printed.out).into_owned();
    if stated.starts_with("REFUSED") {
        same("the output", &text[..], "")?;
        let named = printed.errors.contains(stated);
        same("the refusal is named", named, true)?;
        same("the status", printed.status, Some(1))?;
        return Ok(None);
    }
    same("the messages", &printed.errors[..], "")?;
    same("the status", printed.status, Some(0))?;
    // The verdict, which may be two words, is what stands before positions and rounds.
    let verdict = stated.rsplitn(3, ' ').last();
    same("the verdict", text.split(':').next(), verdict)?;
    Ok(Some(text))
}

/// The last line of an attack's explanation is an end, with its reason.
pub fn ends_with_reason(text: &str) -> Result<(), String> {
    let last = text.lines().last().unwrap_or_default();
    let no_answer = last.ends_with(" has no answer.");
    let end_marks = last.contains(" has end mark ");
    let reason = last.starts_with("  The end: ") && (no_answer || end_marks);
    if reason {
        Ok(())
    } else {
        Err(format!("the explanation ends with {last:?}"))
    }
}
