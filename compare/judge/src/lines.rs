//! The whole lines of another reader (compare/README.md) brought to what the Rust tells, by the Rust's OWN conversions, and
//! held to the Rust's lines.
use crate::answers::{format_kind, hex, kind, reserved, text, time, KNOWN_KEY_FLAGS, KNOWN_VALUE_FLAGS};
use crate::base_block::{FileBaseBlockReservedFlags, FileFormat, FileType};
use crate::cell_key_node::KeyNodeFlags;
use crate::log::Logs;
use crate::util;
use std::collections::BTreeMap;
use std::io::{BufRead, BufReader};

/// For each word of a whole `ok` line: n as it is, x not told by the Rust, t a FILETIME, g an id in hex, u a 16-bit text in
/// hex, y and o the raw type and format, Y its kind (held to what the Rust makes of the raw number), f the resource manager's
/// flags, k the flags of a key, K its name in hex, v the flags of a value, V its name.
fn fields(tag: &str) -> &'static str {
    match tag {
        "2" => "nntnnyYoYnnnnxfntnnunnngggnnn",
        "4" => "nnnx",
        "5" => "nxxxnnx",
        "6" => "nnknnnnnnnnnnnnnnnnnnKnnn",
        "7" => "nnnnnnvV",
        "8" => "nnnnnnnn",
        "11" => "nxn",
        "21" | "22" => "nnnnx",
        _ => "n",
    }
}

fn bytes(word: &str) -> Vec<u8> {
    if word == "-" { return vec![]; }
    (0..word.len() / 2).map(|i| u8::from_str_radix(&word[2 * i..2 * i + 2], 16).expect("hex digits")).collect()
}

/// What stands for the Rust's answer, after the tag.
fn convert(line: &str) -> String {
    let mut logs = Logs::default();
    let words: Vec<&str> = line.split_whitespace().collect();
    let tag = words[0];
    if words.get(1) == Some(&"refused") {
        let empty = matches!(tag, "4" | "5") && matches!(words[2], "6" | "7");
        return if empty { "empty" } else if tag == "8" && words[2] == "16" { "none" } else { "error" }.into();
    }
    let mut done = vec!["ok".to_string()];
    let (mut flags, mut made) = (0u16, "");
    let forms = fields(tag);
    if words.len() != 2 + forms.len() { return format!("?? {line}"); }
    for (form, w) in forms.chars().zip(&words[2..]) {
        let number = || w.parse().expect("a number");
        done.push(match form {
            'x' => continue,
            't' => time(util::get_date_time_from_filetime(w.parse().expect("a FILETIME"))),
            'g' => hex(&util::get_guid_from_buffer(&bytes(w), &mut logs).0),
            'u' => { let b = bytes(w); text(&util::from_utf16_le_string(&b, b.len(), &mut logs, "")) }
            'y' => { made = kind(FileType::from_value(number(), &mut logs)); continue }
            'o' => { made = format_kind(FileFormat::from_value(number(), &mut logs)); continue }
            'Y' => if *w == made { w.to_string() } else { format!("{w} where the raw number is {made}") },
            'f' => reserved(FileBaseBlockReservedFlags::from_value(number(), &mut logs)),
            'k' | 'v' => { flags = number() as u16; w.to_string() }
            'K' | 'V' => {
                let b = bytes(w);
                let (eight, known) = if form == 'K' {
                    (KeyNodeFlags::from_bits_checked(flags, &mut logs).contains(KeyNodeFlags::KEY_COMP_NAME), flags & !KNOWN_KEY_FLAGS == 0)
                } else { (flags & 1 == 1, flags & !KNOWN_VALUE_FLAGS == 0) };
                if known { text(&util::string_from_bytes(eight, &b, b.len() as u16, &mut logs, "")) } else { "S?".into() }
            }
            _ => w.to_string(),
        });
    }
    done.join(" ")
}

fn function(tag: u32) -> &'static str {
    match tag {
        1 => "checksum",
        2 => "base block",
        3 => "is_big_data_block",
        4 => "value list",
        5 => "subkey walk",
        6 => "key record",
        7 => "value record *",
        8 => "lookup *",
        9 => "name hash",
        10 => "bins and cells",
        11 => "one list *",
        12 => "words",
        13 => "record's values",
        14 => "record's subkeys",
        15 => "record's lookup",
        16 => "leaf list",
        17 => "walk's counts",
        18 => "cell",
        19 => "number written",
        20 => "record's counts",
        21 => "value data *",
        22 => "record's data *",
        23 => "reader's step",
        24 => "deleted keys",
        25 => "bins' step",
        26 => "bins in parts",
        27 => "one part",
        28 => "totals",
        29 => "strict list",
        30 => "strict walk",
        31 => "strict by record",
        32 => "strict leaf list",
        33 => "strict counts",
        34 => "the same by record",
        35 => "li as lh",
        36 => "lh as li",
        37 => "there and back",
        38 => "record given",
        39 => "record's place",
        40 => "listing checked",
        41 => "listing written",
        42 => "written, checked",
        _ => "?",
    }
}

fn lines(p: &str) -> impl Iterator<Item = String> { BufReader::new(std::fs::File::open(p).expect(p)).lines().map(|l| l.expect("text")) }

/// Holds the lines of the Rust and of `paper.py` to the whole lines of the Rattle program. Writes a row for each kind of case: who,
/// tag, why it is outside ("-": it is compared), equal, different, not run. Shows the first differences on standard error.
pub fn compare(rust: &str, paper: &str, rattle: &str) {
    let (mut one, mut two, mut three) = (lines(rust), lines(paper), lines(rattle));
    let mut counts: BTreeMap<(&str, u32, String), [u64; 3]> = Default::default();
    let (mut index, mut shown) = (0u64, 0);
    let mut show = |who: &str, index: u64, x: &str, y: &str, mine: &str| {
        shown += 1;
        if shown <= 20 { eprintln!("DIFFERS in line {index}\n  {who:<6} {x}\n  Rattle {y}{}", if mine.is_empty() { String::new() } else { format!("\n      as {mine}") }); }
    };
    loop {
        index += 1;
        let (x, p, y) = match (one.next(), two.next(), three.next()) {
            (Some(x), Some(p), Some(y)) => (x, p, y),
            (None, None, None) => break,
            _ => {
                eprintln!("line {index}: one output is shorter than another");
                counts.entry(("Rust", 0, "-".into())).or_default()[1] += 1;
                break;
            }
        };
        let (tag, told) = x.split_once(' ').expect("a line");
        let number: u32 = tag.parse().expect("a tag");
        counts.entry(("paper", number, "-".into())).or_default()[(p != y) as usize] += 1;
        if p != y { show("paper", index, &p, &y, ""); }
        let mine = if y.split(' ').next() == Some(tag) { convert(&y) } else { format!("?? {y}") };
        let (why, told) = match told.strip_prefix("- ") { Some(rest) => rest.split_once(' ').unwrap_or((rest, "")), None => ("-", told) };
        if why == "none" { continue; }
        counts.entry(("Rust", number, why.into())).or_default()[if told.is_empty() { 2 } else { (told != mine) as usize }] += 1;
        if why == "-" && told != mine { show("Rust", index, &x, &y, &mine); }
    }
    for ((who, tag, why), c) in &counts { println!("{who} {tag} {why} {} {} {}", c[0], c[1], c[2]); }
}

/// Adds up the rows that `compare` wrote and prints the table; true where nothing that is compared differs.
pub fn table() -> bool {
    let mut counts: BTreeMap<(String, u32, String), [u64; 3]> = Default::default();
    for l in std::io::stdin().lock().lines().map(|l| l.expect("text")) {
        let w: Vec<&str> = l.split(' ').collect();
        let c = counts.entry((w[0].into(), w[1].parse().expect("a tag"), w[2].into())).or_default();
        for i in 0..3 { c[i] += w[3 + i].parse::<u64>().expect("a number"); }
    }
    let mut good = true;
    for (who, title) in [("Rust", "the Rattle program against the Rust"), ("paper", "the Rattle program against compare/paper.py, whole lines")] {
        println!("{title}\n{:<18} {:>9} {:>9} {:>9}   outside what 01 compares", "function", "compared", "equal", "different");
        let (mut three, mut all) = (0, 0);
        for ((w, tag, why), c) in &counts {
            if w != who || why != "-" { continue; }
            let outside: Vec<String> = counts.iter().filter(|((v, t, y), _)| v == who && t == tag && y != "-")
                .map(|((_, _, y), c)| {
                    let parts: Vec<String> = [(c[0], "equal"), (c[1], "different"), (c[2], "not run")].iter().filter(|p| p.0 > 0).map(|p| format!("{} {}", p.0, p.1)).collect();
                    format!("{y}: {}", parts.join(", "))
                }).collect();
            println!("{:<18} {:>9} {:>9} {:>9}   {}", function(*tag), c[0] + c[1], c[0], c[1], outside.join("; "));
            if (4..=6).contains(tag) { three += c[0] + c[1]; }
            all += c[0] + c[1];
            good &= c[1] == 0;
        }
        println!("{all} compared; value list, subkey walk and key record together: {three}\n");
    }
    good
}
