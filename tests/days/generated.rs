//! Mode generated: known and drawn days, damaged and special texts, and ways to
//! feed them.

use crate::draw::Random;
use crate::groups::{Tests, MOST_DIFFERENCES};
use crate::model::MOST_BYTES_READ;
use crate::process::{compare_file, Feed};
use crate::special::{line_end_texts, long_texts, special_texts, tiny_texts};
use crate::texts::{
    damaged_texts, direct_texts, grouped_texts, heavy_texts, known_texts, pieced_texts,
    sound_texts, tied_texts, Named,
};
use std::fs;

/// Mode self holds this program's answers to what the papers say; here
/// yard-plan is held to them.
fn group(tests: &mut Tests, name: &'static str, texts: impl IntoIterator<Item = Named>) {
    tests.begin(name);
    for (which, text) in texts {
        tests.compare(&which, &text, Feed::whole(&text));
    }
}

/// The text in two to seven pieces, cut anywhere.
pub fn draw_pieces(random: &mut Random, text: &[u8]) -> Vec<Vec<u8>> {
    let mut cuts = vec![0, text.len()];
    for _ in 0..random.between(1, 6) {
        cuts.push(random.below(text.len() + 1));
    }
    cuts.sort_unstable();
    cuts.windows(2).map(|ends| text[ends[0]..ends[1]].to_vec()).collect()
}

/// Input that arrives bit by bit: a short read is not the end of the text.
fn pieces_group(tests: &mut Tests) {
    tests.begin("pieces");
    for ((which, text), mut random) in pieced_texts() {
        let pieces = draw_pieces(&mut random, &text);
        tests.compare(&which, &text, Feed::Pipe(pieces));
    }
}

fn file_group(tests: &mut Tests) {
    tests.begin("file");
    let path = std::env::temp_dir().join(format!("yard-plan-days-{}", std::process::id()));
    let program = tests.program;
    for (name, text) in [tiny_texts(), line_end_texts(), long_texts()].concat() {
        let stored = fs::write(&path, &text).map_err(|error| error.to_string());
        let compare = |expected: &[u8]| {
            stored.and_then(|()| compare_file(program, &path, expected, MOST_BYTES_READ))
        };
        tests.judge(&name, &text, compare);
    }
    // Left behind it would do no harm.
    let _ = fs::remove_file(&path);
}

pub fn generated(program: &str) -> bool {
    let mut tests = Tests::new(program);
    group(&mut tests, "known", known_texts());
    group(&mut tests, "sound", sound_texts());
    group(&mut tests, "sets", grouped_texts());
    group(&mut tests, "ties", tied_texts());
    group(&mut tests, "direct", direct_texts());
    group(&mut tests, "heavy", heavy_texts());
    group(&mut tests, "damaged", damaged_texts());
    group(&mut tests, "special", special_texts());
    pieces_group(&mut tests);
    file_group(&mut tests);
    if tests.stopped() {
        println!("stopped after {MOST_DIFFERENCES} differences");
    } else {
        tests.require("sound", &["plan", "9", "16"]);
        tests.require("sets", &["plan", "9", "16"]);
        tests.require("ties", &["plan"]);
        tests.require("direct", &["plan"]);
        tests.require("heavy", &["plan"]);
        tests.require("damaged", &["1", "2", "3", "4", "5", "6", "7", "15"]);
    }
    tests.print_counts();
    tests.finish()
}
