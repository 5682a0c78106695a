//! Mode weights: tools/lexicographic, which writes a day file anew with the weights
//! that order 8 of 02 speaks of, the sum of all boxes and 1.

use crate::day_file::{read_day, READING_REFUSALS};
use crate::fewest_weights::sum;
use crate::groups::{Tests, MOST_DIFFERENCES};
use crate::known::KNOWN_DAYS;
use crate::process::{escaped, run_to_end, Ended, Feed};
use crate::seen::{require_all, Seen};
use crate::sets::has_groups;
use crate::weights_texts::{all_texts, Given, Wanted};
use std::fs;
use std::path::{Path, PathBuf};

fn is_one_line(errors: &[u8]) -> bool {
    errors.len() > 1 && errors.iter().position(|&byte| byte == b'\n') == Some(errors.len() - 1)
}

/// What the tool has left is what it has to leave.
pub fn compare(ended: &Ended, wanted: &Wanted) -> Result<(), String> {
    let status = ended.status.code();
    let refused = status == Some(1) && ended.output.is_empty() && is_one_line(&ended.errors);
    let written = status == Some(0) && ended.errors.is_empty();
    let errors = String::from_utf8_lossy(&ended.errors);
    let (good, wanted) = match wanted {
        Wanted::Written(text) => {
            (written && ended.output == *text, format!("\"{}\"", escaped(text)))
        }
        Wanted::Refused(words) => {
            let named = words.iter().all(|word| errors.contains(word));
            (refused && named, format!("one line of errors with {words:?}"))
        }
        Wanted::RefusedLike(refusal) => {
            let alike = written && read_day(&ended.output) == Err(*refusal);
            (refused || alike, format!("refused, or {refusal:?} of what is written"))
        }
    };
    match good {
        true => Ok(()),
        false => Err(format!("expected {wanted}\n  got {ended}")),
    }
}

// ---------------------------------------------------------------------------
// What has to be seen
// ---------------------------------------------------------------------------

const WAYS: [&str; 2] = ["standard input", "a file"];

/// The tool takes its time, so that texts are few.
const LEAST_SEEN: usize = 2;

const WRITTEN: [&str; 7] = [
    "more bytes than before",
    "fewer bytes than before",
    "as many bytes as before, others",
    "the same bytes",
    "no boxes",
    "a sum of 2^8 or more",
    "groups",
];

fn by(way: &str, what: &str) -> String {
    format!("{what}, by {way}")
}

fn no_day_file(number: usize) -> String {
    format!("no day file: {number}")
}

fn required() -> Vec<String> {
    let mut required: Vec<String> = WRITTEN.map(str::to_string).to_vec();
    required.extend(READING_REFUSALS.map(no_day_file));
    required.extend(WAYS.iter().flat_map(|way| [by(way, "written"), by(way, "refused")]));
    required
}

fn note(seen: &mut Seen, Given { text, wanted, .. }: &Given, way: &str) {
    let written = matches!(wanted, Wanted::Written(_));
    seen.note(&by(way, if written { "written" } else { "refused" }));
    match (wanted, read_day(text)) {
        (Wanted::Written(written), Ok(day)) => {
            let found = [
                written.len() > text.len(),
                written.len() < text.len(),
                written.len() == text.len() && written != text,
                written == text,
                sum(&day) == 0,
                sum(&day) >= 1 << 8,
                has_groups(&day),
            ];
            found.into_iter().zip(WRITTEN).for_each(|(holds, what)| seen.note_if(holds, what));
        }
        (Wanted::RefusedLike(refusal), _) => seen.note(&no_day_file(refusal.number)),
        _ => {}
    }
}

// ---------------------------------------------------------------------------
// The runs
// ---------------------------------------------------------------------------

struct Run<'a> {
    tests: Tests<'a>,
    /// Where a text is stored that the tool is to read by its name.
    path: PathBuf,
}

impl Run<'_> {
    fn judge(&mut self, which: &str, ended: Result<Ended, String>, wanted: &Wanted) {
        match ended.and_then(|ended| compare(&ended, wanted)) {
            Ok(()) => self.tests.passed += 1,
            Err(what) => self.tests.fail(&format!("{which}\n  {what}")),
        }
    }

    fn piped(&self, text: &[u8]) -> Result<Ended, String> {
        run_to_end(self.tests.program, &[], Feed::whole(text))
    }

    /// By its name; on standard input there is a day that the tool is not to read.
    fn named(&self, path: &Path) -> Result<Ended, String> {
        run_to_end(self.tests.program, &[path], Feed::whole(&KNOWN_DAYS[0].text()))
    }

    /// The text in a file, which has to stay as it was.
    fn stored(&self, text: &[u8]) -> Result<Ended, String> {
        fs::write(&self.path, text).map_err(|error| error.to_string())?;
        let ended = self.named(&self.path)?;
        match fs::read(&self.path) {
            Ok(now) if now == text => Ok(ended),
            _ => Err("the file has changed".to_string()),
        }
    }

    /// One text by standard input, the next by its name.
    fn text(&mut self, index: usize, given: &Given, seen: &mut Seen) {
        let way = index % WAYS.len();
        note(seen, given, WAYS[way]);
        let text = &given.text;
        let ended = if way == 0 { self.piped(text) } else { self.stored(text) };
        let which = format!("{}, by {}\n  text \"{}\"", given.which, WAYS[way], escaped(text));
        self.judge(&which, ended, &given.wanted);
    }

    /// Nothing to read, and files that can't be read.
    fn no_texts(&mut self) {
        let refused = Wanted::Refused(Vec::new());
        let (piped, stored) = (self.piped(b""), self.stored(b""));
        self.judge("nothing on standard input", piped, &refused);
        self.judge("an empty file", stored, &refused);
        let directory = self.named(&std::env::temp_dir());
        self.judge("a directory", directory, &refused);
        // Where it can't be removed the next run shows it.
        let _ = fs::remove_file(&self.path);
        let absent = self.named(&self.path);
        self.judge("no such file", absent, &refused);
    }
}

pub fn weights(tool: &str) -> bool {
    let path = std::env::temp_dir().join(format!("yard-weights-{}", std::process::id()));
    let mut run = Run { tests: Tests::new(tool), path };
    let mut seen = Seen::default();
    for (index, given) in all_texts().iter().enumerate() {
        if !run.tests.stopped() {
            run.text(index, given, &mut seen);
        }
    }
    run.no_texts();
    if run.tests.stopped() {
        println!("stopped after {MOST_DIFFERENCES} differences");
    } else {
        require_all(&mut run.tests, &seen, &required(), LEAST_SEEN);
    }
    run.tests.finish()
}
