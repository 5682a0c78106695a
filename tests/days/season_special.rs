//! Special seasons: empty lines at the ends and in runs, ends of lines, an empty line
//! inside a file, 366 days and more, noise, great numbers, and texts around the
//! 1,048,576 bytes that yard-season reads.

use crate::day_file::write_day;
use crate::draw::Random;
use crate::known::day_text;
use crate::season::{MOST_DAYS, SEASON_BYTES_READ};
use crate::season_known::{dear, joined, left_over, p, parted, unkept, unread, KNOWN_SEASONS};
use crate::special::{greatest_day, longest_plan_day};
use crate::texts::Named;

pub fn known_seasons() -> impl Iterator<Item = Named> {
    KNOWN_SEASONS.iter().map(|(name, text, _)| (name.to_string(), text()))
}

fn named(name: &str, text: Vec<u8>) -> Named {
    (name.to_string(), text)
}

fn empty_lines(count: usize) -> Vec<u8> {
    vec![b'\n'; count]
}

/// The same file again and again, empty lines between.
fn times(file: &[u8], count: usize) -> Vec<Vec<u8>> {
    vec![file.to_vec(); count]
}

/// Empty lines before, between and behind two files, the first or the second without
/// its last byte 10, in all numbers.
fn end_texts() -> Vec<Named> {
    let mut texts = Vec::new();
    for (before, between, behind) in (0..48).map(|turn| (turn % 4, 1 + turn / 4 % 3, turn / 12)) {
        for (cut, cut_last) in [(0, 0), (1, 0), (0, 1)] {
            let (first, last) = (p("P1"), p("P13"));
            let first = &first[..first.len() - cut];
            let last = &last[..last.len() - cut_last];
            let lines = [before, between, behind].map(empty_lines);
            let text = [&lines[0], first, &lines[1], last, &lines[2]].concat();
            let what = format!("{before}, {between}, {behind} bytes 10, {cut} and {cut_last} cut");
            texts.push((what, text));
        }
    }
    texts
}

/// Nothing but bytes 10; the greatest numbers are 366 and fewer in 8 or 16 bits.
fn empty_line_texts() -> Vec<Named> {
    let counts =
        [0, 1, 2, 3, 4, 7, 254, 255, 256, 257, 364, 367, 368, 400, 511, 512, 600, 65_535, 65_536];
    let counts = counts.into_iter().chain([65_540, 65_536 + 365, 131_072]);
    counts.map(|count| (format!("{count} bytes 10"), empty_lines(count))).collect()
}

/// One empty line at each place of a file, and a line that is nearly empty.
fn inside_texts() -> Vec<Named> {
    let mut texts = Vec::new();
    for (name, file) in [("P1", p("P1")), ("grouped", parted()), ("P9", p("P9"))] {
        let lines: Vec<&[u8]> = file.split_inclusive(|&byte| byte == b'\n').collect();
        for place in 0..=lines.len() {
            for line in ["\n", "\n\n", "\r\n", " \n", "\0\n", "\u{a0}\n"] {
                let (above, below) = (lines[..place].concat(), lines[place..].concat());
                let text = [&above, line.as_bytes(), &below].concat();
                texts.push((format!("{name}, {line:?} after line {place}"), text.clone()));
                if line == "\n" {
                    let text = joined(&[p("P6"), text, p("P13")]);
                    texts.push((format!("{name}, {line:?} after line {place}, joined"), text));
                }
            }
        }
    }
    texts
}

/// Ends of lines as other machines write them, and bytes above 127.
fn line_end_texts() -> Vec<Named> {
    let season = joined(&[p("P1"), p("P9"), p("P6"), parted()]);
    let text = String::from_utf8(season.clone()).expect("ASCII");
    let with = |before: &str, behind: &str| text.replace(before, behind).into_bytes();
    let ended = |end: &[u8]| [&season, end].concat();
    vec![
        named("byte 13 before each byte 10", with("\n", "\r\n")),
        named("byte 13 for each byte 10", with("\n", "\r")),
        named("byte 10 before each byte 13", with("\n", "\n\r")),
        named("byte 13 in the empty lines", with("\n\n", "\n\r\n")),
        named("byte 13 before the empty lines", with("\n\n", "\r\n\n")),
        named("a blank in the empty lines", with("\n\n", "\n \n")),
        named("two bytes 10 for each", with("\n", "\n\n")),
        named("three bytes 10 for each", with("\n", "\n\n\n")),
        named("byte order mark", ["\u{feff}".as_bytes(), &season].concat()),
        named("byte 138 for the empty lines", season.iter().map(|&byte| byte | 128).collect()),
        named("full-width digits", with("1", "\u{ff11}")),
        named("no byte 10", with("\n", "")),
        named("byte 0 at the end", ended(b"\0")),
        named("byte 26 at the end", ended(b"\x1a")),
        named("byte 255 at the end", ended(b"\n\xff")),
        named("byte 138 at the end", ended(b"\n\x8a\n")),
        named("byte 0 in the first line", ended(b"\n\0\n\n")),
    ]
}

/// Bytes of few values, most of them 10, and of all values.
fn noise_texts() -> Vec<Named> {
    let mut random = Random(2561);
    let mut texts = Vec::new();
    for alphabet in [&b"\n\n\nx"[..], b"\nx", b"\n\r", b"\n\n 1", b"\n\0\x8a\xff"] {
        for length in [2, 3, 5, 9, 17, 40, 40, 100, 100, 300, 700] {
            let text: Vec<u8> = (0..length).map(|_| random.pick(alphabet)).collect();
            texts.push((format!("noise of {length} bytes {alphabet:?}"), text));
        }
    }
    for length in [10, 1000, 5000, 20_000] {
        let text = (0..length).map(|_| random.byte()).collect();
        texts.push((format!("noise of {length} bytes"), text));
    }
    texts
}

/// Each text that a refusal is given for at the start, in the middle and at the end.
fn bad_texts() -> Vec<Named> {
    let mut bad: Vec<Named> =
        [1, 2, 3, 4, 5, 6, 7, 15].map(|number| (number.to_string(), unread(number))).to_vec();
    bad.extend([named("9", p("P9")), named("9 too", p("P10")), named("16", unkept())]);
    bad.extend([named("empty", Vec::new()), named("no text", b"\xff\xfe\n".to_vec())]);
    bad.push(named("a names line without byte 10", b"trains tracks slots revisit split".to_vec()));
    let mut texts = Vec::new();
    for (name, file) in bad {
        let (one, other) = (p("P1"), left_over());
        let seasons = [
            ("alone", file.clone()),
            ("first", joined(&[file.clone(), one.clone(), other.clone()])),
            ("between", joined(&[one.clone(), file.clone(), other.clone()])),
            ("last", joined(&[one.clone(), other, file.clone()])),
            ("twice", joined(&[file.clone(), one, file])),
        ];
        texts.extend(seasons.map(|(place, text)| (format!("{name} {place}"), text)));
    }
    texts
}

// ---------------------------------------------------------------------------
// Many days
// ---------------------------------------------------------------------------

/// Good and bad files in turn.
fn mixed(count: usize) -> Vec<Vec<u8>> {
    let files = [p("P8"), p("P9"), unread(1), left_over(), Vec::new(), unkept(), p("P12")];
    files.into_iter().cycle().take(count).collect()
}

/// The first file lacks its last byte 10, so that it is one day with the second.
fn first_unended(mut files: Vec<Vec<u8>>) -> Vec<u8> {
    files[0].pop();
    joined(&files)
}

/// 366 days, one fewer and one more, of all kinds.
fn many_texts() -> Vec<Named> {
    let mut texts = Vec::new();
    for count in [MOST_DAYS - 1, MOST_DAYS, MOST_DAYS + 1, MOST_DAYS + 2] {
        let kinds = [
            ("P8", times(&p("P8"), count)),
            ("no plan", times(&p("P9"), count)),
            ("bad files", times(&unread(2), count)),
            ("mixed files", mixed(count)),
        ];
        for (name, files) in kinds {
            let text = joined(&files);
            let ended = [&text, &b"\n"[..]].concat();
            let begun = [&b"\n"[..], &text].concat();
            texts.push((format!("{count} days, {name}"), text));
            texts.push((format!("{count} days, {name}, an empty line behind"), ended));
            texts.push((format!("{count} days, {name}, an empty line before"), begun));
            texts.push((format!("{count} files, {name}, one unended"), first_unended(files)));
        }
    }
    for (good, bad) in [(300, 66), (300, 67), (256, 10), (10, 256), (1, 365), (1, 366), (365, 1)] {
        let text = joined(&[times(&p("P1"), good), times(&unread(5), bad)].concat());
        texts.push((format!("{good} good and {bad} bad days"), text));
    }
    texts
}

/// All pairs of six trains at 255 boxes in two slots of three tracks.
fn full() -> Vec<u8> {
    let trains: Vec<String> = (1..=6).map(|number| format!("{number} 1 2")).collect();
    let pairs = (0..36).map(|pair| (1 + pair / 6, 1 + pair % 6)).filter(|(to, from)| to != from);
    let moves: Vec<String> = pairs.map(|(to, from)| format!("{to} {from} 255")).collect();
    let trains: Vec<&str> = trains.iter().map(String::as_str).collect();
    let moves: Vec<&str> = moves.iter().map(String::as_str).collect();
    day_text("6 3 2 65535 65535", &trains, &moves)
}

/// Totals that need many bits, few days of twelve trains among them.
fn great_texts() -> Vec<Named> {
    let (dear, full) = (dear(), full());
    let great = [write_day(&greatest_day()), write_day(&longest_plan_day())];
    let mut texts = vec![
        named("40 full days and one of great savings", {
            joined(&[times(&full, 40), times(&dear, 1)].concat())
        }),
        named("two days of twelve trains", joined(&great)),
    ];
    for count in [30, 64, 65, 129, 200] {
        texts.push((format!("{count} days of great savings"), joined(&times(&dear, count))));
    }
    for count in [14, 15, 30, 138, 300, 366] {
        texts.push((format!("{count} full days"), joined(&times(&full, count))));
    }
    texts
}

// ---------------------------------------------------------------------------
// Long texts
// ---------------------------------------------------------------------------

/// As many bytes as 366 accepted files can have with the empty lines between them.
/// All but three are refused in their last row, for planning them all takes long.
pub fn greatest_season() -> Vec<u8> {
    let good = write_day(&greatest_day());
    let mut bad = good.clone();
    // The last train's number, for which that of the train before it stands now.
    let last = bad.len() - 2;
    bad[last] -= 1;
    let files = [times(&good, 2), times(&bad, MOST_DAYS - 3), times(&good, 1)];
    joined(&files.concat())
}

/// A line that is no names line, of so many bytes with its byte 10.
fn filler(length: usize) -> Vec<u8> {
    let mut line = vec![b'x'; length - 1];
    line.push(b'\n');
    line
}

/// The last file ends so many bytes before or behind the last byte that is read; then
/// more follows.
fn around_the_cut(file: &[u8], beyond: isize, rest: &[u8]) -> Vec<u8> {
    let length = (SEASON_BYTES_READ as isize + beyond) as usize - file.len() - 1;
    [&filler(length)[..], b"\n", file, rest].concat()
}

/// More days than 366, but only beyond what is read.
fn late_days() -> Vec<u8> {
    let early = joined(&times(&p("P8"), MOST_DAYS - 1));
    let length = SEASON_BYTES_READ - early.len() - 1;
    [&early[..], b"\n", &filler(length), b"\n", &p("P1")].concat()
}

/// Texts of which the program reads the first 1,048,576 bytes only, and neighbours.
pub fn very_long_seasons() -> Vec<Named> {
    let (p1, p6) = (p("P1"), p("P6"));
    let mut texts = vec![
        named("the greatest season", greatest_season()),
        named("days too many beyond the cut", late_days()),
        named("bytes 10 beyond the cut", vec![b'\n'; SEASON_BYTES_READ + 5]),
        named("one line", filler(SEASON_BYTES_READ + 5)),
    ];
    let rest = [&b"\n"[..], &p6].concat();
    for beyond in [-1, 0, 1, 2, 7, 13, 40] {
        let text = around_the_cut(&p1, beyond, &rest);
        texts.push((format!("P1 ends {beyond} bytes behind the cut, P6 follows"), text));
    }
    for (name, rest) in [("nothing", &b""[..]), ("an empty line", b"\n"), ("a byte", b"x")] {
        texts.push((format!("P1 ends at the cut, then {name}"), around_the_cut(&p1, 0, rest)));
    }
    texts
}

pub fn special_seasons() -> Vec<Named> {
    let kinds = [
        end_texts(),
        empty_line_texts(),
        inside_texts(),
        line_end_texts(),
        noise_texts(),
        bad_texts(),
        many_texts(),
        great_texts(),
    ];
    kinds.into_iter().flatten().collect()
}
