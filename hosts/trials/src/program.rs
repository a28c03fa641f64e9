//! Runs the program under trial on a script and holds its transcript against the expected one.

use std::io::{Read, Write};
use std::process::{Command, Stdio};
use std::sync::mpsc;
use std::thread;
use std::time::Duration;

/// A finished script with the model's transcript.
pub struct Played {
    pub name: String,
    pub script: Vec<u8>,
    pub transcript: String,
    /// Answer lines written before each line of the script.
    pub answered: Vec<usize>,
    /// What a person needs beside the line that differs, from the lines before it.
    pub state: fn(&[&[u8]]) -> String,
}

/// A program that is silent for so long is taken to hang.
const PATIENCE: Duration = Duration::from_secs(60);
/// Lines shown before the one that differs.
const LINES_BEFORE: usize = 6;
/// Longer lines are cut where they only lead up to the difference.
const CUT: usize = 160;

/// The program's transcript, and what was wrong with the run itself, if anything. The program comes
/// with its arguments, after single spaces.
pub fn transcript_of(program: &str, script: &[u8]) -> Result<(Vec<u8>, Option<String>), String> {
    let mut words = program.split(' ');
    let mut child = Command::new(words.next().unwrap_or_default())
        .args(words)
        .stdin(Stdio::piped())
        .stdout(Stdio::piped())
        .spawn()
        .map_err(|error| format!("cannot start {program}: {error}"))?;
    let mut input = child.stdin.take().expect("it was piped");
    let mut output = child.stdout.take().expect("it was piped");
    thread::scope(|scope| {
        // Both ends move at once, so that neither pipe can fill up and stop the other.
        scope.spawn(move || {
            // A program that stops reading shows itself by a short transcript.
            let _ = input.write_all(script);
        });
        let (sender, receiver) = mpsc::channel::<Vec<u8>>();
        scope.spawn(move || {
            let mut chunk = vec![0; 1 << 16];
            while let Ok(length @ 1..) = output.read(&mut chunk) {
                if sender.send(chunk[..length].to_vec()).is_err() {
                    break;
                }
            }
        });
        let mut transcript = Vec::new();
        let mut complaint = None;
        loop {
            match receiver.recv_timeout(PATIENCE) {
                Ok(chunk) => transcript.extend(chunk),
                Err(mpsc::RecvTimeoutError::Disconnected) => break,
                Err(mpsc::RecvTimeoutError::Timeout) => {
                    complaint = Some(format!("no answer for {} seconds", PATIENCE.as_secs()));
                    let _ = child.kill();
                    break;
                }
            }
        }
        let status = child.wait().map_err(|error| error.to_string())?;
        if complaint.is_none() && !status.success() {
            complaint = Some(format!("the program ended with {status}"));
        }
        Ok((transcript, complaint))
    })
}

/// Plays the script on the program; a difference comes back as text.
pub fn compare(program: &str, played: &Played) -> Result<(), String> {
    let (got, complaint) = transcript_of(program, &played.script)?;
    difference(played, &got)?;
    match complaint {
        None => Ok(()),
        Some(complaint) => Err(format!("script '{}': {complaint}", played.name)),
    }
}

/// Holds a transcript against the expected one.
pub fn difference(played: &Played, got: &[u8]) -> Result<(), String> {
    let expected = played.transcript.as_bytes();
    if got == expected {
        return Ok(());
    }
    let mut ours = expected.split_inclusive(|&byte| byte == b'\n');
    let mut theirs = got.split_inclusive(|&byte| byte == b'\n');
    let mut place = 0;
    let (ours, theirs) = loop {
        match (ours.next(), theirs.next()) {
            (Some(ours), Some(theirs)) if ours == theirs => place += 1,
            pair => break pair,
        }
    };
    Err(report(played, place, ours, theirs))
}

/// What one needs to see, and to play it again by hand.
fn report(played: &Played, place: usize, ours: Option<&[u8]>, theirs: Option<&[u8]>) -> String {
    let lines: Vec<&[u8]> = played.script.split(|&byte| byte == b'\n').collect();
    // The last line that starts at or before the answer; lines without answers start there too.
    let at = played.answered.partition_point(|&before| before <= place);
    let at = at.saturating_sub(1);
    let mut text = format!("script '{}' differs at line {}\n", played.name, at + 1);
    for line in &lines[at.saturating_sub(LINES_BEFORE)..at] {
        text += &format!("  before:   {}\n", shown(line, CUT));
    }
    text += &format!("  line:     {}\n", shown(lines[at], usize::MAX));
    let answer = place - played.answered.get(at).unwrap_or(&place);
    text += &format!("  answer {} of this line\n", answer + 1);
    for (who, line) in [("expected", ours), ("program ", theirs)] {
        let line = line.map_or("(end of the transcript)".into(), |line| {
            shown(line, usize::MAX)
        });
        text += &format!("  {who}: {line}\n");
    }
    if let (Some(ours), Some(theirs)) = (ours, theirs) {
        let same = ours.iter().zip(theirs).take_while(|(a, b)| a == b).count();
        text += &format!("  the same up to column {same}\n");
    }
    text + &(played.state)(&lines[..at])
}

/// A line in print, cut where it is long.
fn shown(line: &[u8], most: usize) -> String {
    let mut text = line.escape_ascii().to_string();
    if text.len() > most {
        text.truncate(most);
        text += " ...";
    }
    text
}
