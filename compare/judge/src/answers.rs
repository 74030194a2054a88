//! What the supplied Rust answers to a case, as a line: `ok VALUES..`, `error`, `empty` or `panic`. `- WHY ..` marks a case
//! that document 01 does not compare, or (undone) whose conversion by the Rust loses bits.
use crate::base_block::{BaseBlock, BaseBlockBase, FileBaseBlockReservedFlags, FileFormat, FileType};
use crate::cell_big_data::CellBigData;
use crate::cell_key_node::{probe, CellKeyNode, CellKeyNodeReadOptions};
use crate::cell_key_value::CellKeyValue;
use crate::file_info::FileInfo;
use crate::state::State;
use crate::stream::Case;
use crate::{sub_key_list_lf, sub_key_list_lh, sub_key_list_li, sub_key_list_ri};
use std::fmt::Write as _;
use std::panic::{catch_unwind, AssertUnwindSafe};

#[derive(Clone, Copy, PartialEq)]
pub enum Form { Converted, Undone, Unguarded, Callers }

// ---- how values are written

pub fn time(t: chrono::DateTime<chrono::Utc>) -> String {
    format!("T{}.{:09}", t.timestamp(), t.timestamp_subsec_nanos())
}
pub fn hex(b: &[u8]) -> String {
    if b.is_empty() { return "-".into(); }
    b.iter().fold(String::new(), |mut s, x| { write!(s, "{x:02x}").unwrap(); s })
}
pub fn text(t: &str) -> String {
    let points: Vec<String> = t.chars().map(|c| format!("{:x}", c as u32)).collect();
    format!("S{}", points.join("."))
}
/// A row: its length, its sum, and the sum of its running sums, both in 64 bits.
pub fn row(v: impl ExactSizeIterator<Item = u64>) -> String {
    let n = v.len();
    let (mut plain, mut running) = (0u64, 0u64);
    for x in v { plain = plain.wrapping_add(x); running = running.wrapping_add(plain); }
    format!("{n} {plain} {running}")
}
fn part(b: &[u8]) -> String { row(b.iter().map(|&x| x as u64)) }
fn places(v: &[u32]) -> String { format!("ok {}", row(v.iter().map(|&x| x as u64))) }
pub fn kind(t: FileType) -> &'static str {
    match t {
        FileType::Primary => "primary",
        FileType::TransactionLog => "log",
        FileType::TransactionLogNewFormat => "newlog",
        FileType::Unknown => "unknown",
    }
}
pub fn format_kind(t: FileFormat) -> &'static str {
    if t == FileFormat::DirectMemoryLoad { "direct" } else { "unknown" }
}
pub fn reserved(t: FileBaseBlockReservedFlags) -> String {
    if t == FileBaseBlockReservedFlags::Unknown { "U".into() } else { (t as u32).to_string() }
}
/// Flag bits that the Rust knows. What becomes of a name where others are set depends on a stand-in (impl_flags_from_bits).
pub const KNOWN_KEY_FLAGS: u16 = 0x53ff;
pub const KNOWN_VALUE_FLAGS: u16 = 0x0003;

// ---- the Rust's conversions undone

const EPOCH: i128 = 11_644_473_600 * 10_000_000;
fn filetime(t: chrono::DateTime<chrono::Utc>) -> String {
    (EPOCH + t.timestamp() as i128 * 10_000_000 + t.timestamp_subsec_nanos() as i128 / 100).to_string()
}
/// Does a FILETIME survive the Rust's conversion, which keeps 64 bits of its nanoseconds since 1970?
fn time_kept(f: u64) -> bool { i64::try_from((f as i128 - EPOCH) * 100).is_ok() }
fn bytes8(t: &str) -> Vec<u8> { t.chars().map(|c| c as u32 as u8).collect() }
fn bytes16(t: &str) -> Vec<u8> { t.encode_utf16().flat_map(|u| u.to_le_bytes()).collect() }
/// Does a 16-bit text survive: whole units, no bad surrogate, and nothing but zeros from the first NUL on?
fn text_kept(b: &[u8], zeros: bool) -> bool {
    let units: Vec<u16> = b.chunks_exact(2).map(|c| u16::from_le_bytes([c[0], c[1]])).collect();
    let end = units.iter().position(|&u| u == 0).unwrap_or(units.len());
    b.len() % 2 == 0 && String::from_utf16(&units).is_ok() && (end == units.len() || zeros && units[end..].iter().all(|&u| u == 0))
}

// ---- what stands in the image, for the tests of 01's domain alone

fn u16_at(b: &[u8], at: usize) -> Option<u16> { Some(u16::from_le_bytes(b.get(at..at.checked_add(2)?)?.try_into().ok()?)) }
fn u32_at(b: &[u8], at: usize) -> Option<u32> { Some(u32::from_le_bytes(b.get(at..at.checked_add(4)?)?.try_into().ok()?)) }
fn u64_at(b: &[u8], at: usize) -> Option<u64> { Some(u64::from_le_bytes(b.get(at..at.checked_add(8)?)?.try_into().ok()?)) }

/// Looks ahead of the walk, since the Rust has no level limit (an endless walk ends the process, past any catch) and no
/// limit on lists: why the case is not to be run or compared. It stops at the first fault, as the Rust does.
struct Ahead { lists: u32, entries: u32, kept: u32, sum: bool }
enum End { Fault, Deep, Steps, Big }
fn ahead(image: &[u8], base: u32, offset: u32, level: u32, a: &mut Ahead) -> Result<(), End> {
    if level == 9 { return Err(End::Deep); }
    if a.lists == 65536 { return Err(End::Steps); }
    let at = offset as usize + base as usize;
    let (Some(sign), Some(n)) = (u16_at(image, at + 4), u16_at(image, at + 6)) else { return Err(End::Fault) };
    let sign = sign.to_le_bytes();
    let n = n as usize;
    let each = match &sign { b"lf" | b"lh" => 8, b"li" | b"ri" => 4, _ => return Err(End::Fault) };
    if at + 8 + each * n > image.len() { return Err(End::Fault); }
    a.lists += 1;
    if &sign != b"ri" { a.entries += n as u32; }
    if a.entries > 1 << 20 { return Err(End::Big); }
    for i in 0..n {
        let e = u32_at(image, at + 8 + each * i).unwrap();
        if &sign == b"ri" { ahead(image, base, e, level + 1, a)?; }
        else if e.checked_add(base).is_some() { a.kept += 1; }
        else if &sign != b"lh" { a.sum = true; }
    }
    Ok(())
}

fn fault(s: &str) -> ! {
    eprintln!("the judge's own tests and the Rust disagree: {s}");
    std::process::exit(3)
}

fn base_block(image: &[u8], form: Form) -> String {
    let Ok((_, BaseBlock { base: h, ext: x })) = BaseBlock::from_bytes(image) else { return "error".into() };
    let r = &x.reserved;
    let undone = form == Form::Undone;
    if undone {
        let times = [12, 568].iter().all(|&at| u64_at(image, at).is_some_and(time_kept));
        let name = image.get(48..112).is_some_and(|b| text_kept(b, true));
        let flags = u32_at(image, 544).is_some_and(|x| x <= 2);
        if !(times && name && flags) { return "- lossy".into(); }
    }
    let at = |t| if undone { filetime(t) } else { time(t) };
    let name = if undone { let mut b = bytes16(&h.filename); b.resize(64, 0); hex(&b) } else { text(&h.filename) };
    format!("ok {} {} {} {} {} {} {} {} {} {} {} {} {} {} {} {} {} {} {} {} {} {}",
        h.primary_sequence_number, h.secondary_sequence_number, at(h.last_modification_date_and_time),
        h.major_version, h.minor_version, kind(h.file_type), format_kind(h.format), h.root_cell_offset_relative,
        h.hive_bins_data_size, h.clustering_factor, h.checksum, reserved(r.flags), r.signature,
        at(r.last_reorganized_timestamp), x.boot_type, x.boot_recover,
        name, part(&h.unk2), hex(&r.rm_id.0), hex(&r.log_id.0), hex(&r.tm_id.0), part(&r.remaining))
}

/// The tests of `read_from_slice` and `read_values` in their order, then `parse_key_values`.
fn value_list(c: &Case, file: &mut FileInfo) -> String {
    file.hbin_offset_absolute = c.c as usize;
    let (count, offset) = (c.a, c.b as i32);
    let there = offset > 0 && (offset as usize) < file.buffer.len();
    let told = if count == 0 { places(&[]) }
        else if !there || count > 1024 * 1024 { "empty".into() }
        else { match CellKeyNode::parse_key_values(file, count, offset) { Ok((_, v)) => places(&v), Err(_) => "error".into() } };
    if count > 0 && count <= 64 || told == "empty" {
        // the same through the Rust's own read_values
        let mut node = CellKeyNode::default();
        node.detail.set_number_of_key_values(&count, 0);
        node.detail.set_key_values_list_offset_relative(&offset, 0);
        let r = probe::read_values(&mut node, file, &mut State::default());
        let right = match told.as_str() {
            "empty" => r.is_ok() && node.sub_values.is_empty() && node.logs.has_logs() == there,
            "error" => r.is_err() && node.sub_values.is_empty(),
            _ => true,
        };
        if !right { fault("value list"); }
    }
    if told.starts_with("ok") && c.d < count { format!("- room {told}") } else { told }
}

/// The tests of `read_sub_keys_internal`, then `parse_sub_key_list`.
fn walk(c: &Case, file: &mut FileInfo, form: Form) -> String {
    file.hbin_offset_absolute = c.c as usize;
    let mut state = State::default();
    if form == Form::Unguarded {
        return match CellKeyNode::parse_sub_key_list(file, &mut state, c.b) { Ok(v) => places(&v), Err(_) => "error".into() };
    }
    if c.d > 65536 { return "- budget".into(); }
    if c.a > 1024 * 1024 { return "empty".into(); }
    if c.a == 0 { return places(&[]); }
    let mut seen = Ahead { lists: 0, entries: 0, kept: 0, sum: false };
    let end = ahead(&file.buffer, c.c, c.b, 1, &mut seen);
    match end {
        Err(End::Deep) => return "- deep".into(),
        Err(End::Steps) => return "- steps".into(),
        Err(End::Big) => return "- big".into(),
        _ => {}
    }
    let r = catch_unwind(AssertUnwindSafe(|| CellKeyNode::parse_sub_key_list(file, &mut state, c.b)));
    let told = match r { Ok(Ok(v)) => places(&v), Ok(Err(_)) => "error".into(), Err(_) => "panic".to_string() };
    if !seen.sum && (told == "error") != matches!(end, Err(End::Fault)) { fault("walk"); }
    if seen.sum { format!("- sum {told}") }
    else if seen.lists > c.d || seen.lists == c.d && told == "error" { format!("- budget {told}") }
    else if told != "error" && seen.kept > c.e { format!("- room {told}") }
    else { told }
}

fn key(c: &Case, file: &mut FileInfo, form: Form) -> String {
    file.hbin_offset_absolute = 0;
    let at = c.a as usize;
    let image = &file.buffer;
    let mut kept = true;
    let told = match image.get(at..).map(|s| probe::from_bytes(&mut State::default(), s, at)) {
        Some(Ok((_, k))) => {
            let d = &k.detail;
            let flags = d.key_node_flag_bits();
            let eight = flags & 0x20 != 0;
            let (raw, n) = (u16_at(image, at + 6).unwrap(), u16_at(image, at + 76).unwrap() as usize);
            kept = raw & !KNOWN_KEY_FLAGS == 0 && (raw & 0x20 != 0 || text_kept(&image[at + 80..at + 80 + n], false));
            let name = if form == Form::Undone { hex(&if eight { bytes8(&k.key_name) } else { bytes16(&k.key_name) }) }
                else if flags & !KNOWN_KEY_FLAGS == 0 { text(&k.key_name) } else { "S?".into() };
            format!("ok {} {} {} {} {} {} {} {} {} {} {} {} {} {} {} {} {} {} {} {} {} {} {}",
                d.size(), !k.is_free() as u8, flags, d.last_key_written_date_and_time(), d.access_flag_bits(),
                d.parent_key_offset_relative(), d.number_of_sub_keys(), d.number_of_volatile_sub_keys(),
                d.sub_keys_list_offset_relative(), d.volatile_sub_keys_list_offset_relative(), d.number_of_key_values(),
                d.key_values_list_offset_relative(), d.security_key_offset_relative(), d.class_name_offset_relative(),
                d.largest_sub_key_name_size(), d.largest_sub_key_class_name_size(), d.largest_value_name_size(),
                d.largest_value_data_size(), d.work_var(), d.key_name_size(), d.class_name_size(), name, part(&d.slack()))
        }
        _ => "error".into(),
    };
    // the public way in gives an error in the same cases
    let options = CellKeyNodeReadOptions { offset: at, cur_path: "", filter: None,
        self_is_filter_match_or_descendent: false, sequence_num: None, get_deleted_and_modified: false };
    let few = image.get(at..).and_then(|s| u32_at(s, 40)).is_none_or(|n| n <= 64);
    if few && CellKeyNode::read(file, &mut State::default(), options).is_err() != (told == "error") { fault("key record"); }
    let size = u32_at(image, at).map(|x| x as i32);
    let name = u16_at(image, at.saturating_add(76));
    let inside = match (size, name) {
        (Some(s), Some(n)) => s < 0 && s % 8 == 0 && s.unsigned_abs() >= 80 + n as u32 && s.unsigned_abs() as usize <= image.len() - at,
        _ => false,
    };
    outside(inside, size, name, 80, told, form == Form::Undone && !kept)
}

/// Why a record is not compared: its size is one that only the Rust takes (72 to 79 for a key record), its name passes its cell, or
/// 01 does not name its size (positive, no multiple of 8, past the image).
fn outside(inside: bool, size: Option<i32>, name: Option<u16>, fixed: u32, told: String, lossy: bool) -> String {
    let size = size.map_or(0, |s| s.unsigned_abs());
    if inside { if lossy { "- lossy".into() } else { told } }
    else if size >= fixed - 8 && size < fixed { format!("- short {told}") }
    else if size >= fixed && name.is_some_and(|n| fixed + n as u32 > size) { format!("- name {told}") }
    else { format!("- size {told}") }
}

/// Not among what 01 compares: the Rust's value record, for sizes as 01 names them for key records.
fn value(c: &Case, file: &FileInfo, form: Form) -> String {
    let (at, image) = (c.a as usize, &file.buffer);
    let mut kept = true;
    let told = match image.get(at..).map(|s| CellKeyValue::from_bytes(s, at, None, false)) {
        Some(Ok((_, v))) => {
            let d = &v.detail;
            let (flags, n) = (d.flags_raw(), d.value_name_size() as usize);
            let eight = flags & 1 != 0;
            let (raw, len) = (u16_at(image, at + 20).unwrap(), u16_at(image, at + 6).unwrap() as usize);
            kept = raw & !KNOWN_VALUE_FLAGS == 0 && (raw & 1 != 0 || text_kept(&image[at + 24..at + 24 + len], false));
            let name = if form == Form::Undone { hex(&if eight { bytes8(&d.value_name()) } else { bytes16(&d.value_name()) }) }
                else if flags & !KNOWN_VALUE_FLAGS == 0 { text(&d.value_name()) } else { "S?".into() };
            format!("ok {} {} {} {} {} {} {} {}", d.size(), !v.is_free() as u8, n, d.data_size_raw(), d.data_offset_relative(), d.data_type_raw(), flags, name)
        }
        _ => "error".into(),
    };
    let (size, name) = (u32_at(image, at).map(|x| x as i32), u16_at(image, at.saturating_add(6)));
    let inside = match (size, name) {
        (Some(s), Some(n)) => s < 0 && s % 8 == 0 && s.unsigned_abs() >= 24 + n as u32 && s.unsigned_abs() as usize <= image.len() - at,
        _ => false,
    };
    outside(inside, size, name, 24, told, form == Form::Undone && !kept)
}

/// Not among what 01 compares: `read_values` and `get_value`, where each record up to the one found can be read by 01 and has a name
/// that is empty or of 8 bits. `none`: no value of that name.
fn lookup(c: &Case, file: &mut FileInfo) -> String {
    file.hbin_offset_absolute = c.c as usize;
    let (count, offset, image) = (c.a, c.b as i32, &file.buffer);
    if count > 64 || offset <= 0 || offset as usize >= image.len() { return "- list".into(); }
    let Ok((_, entries)) = CellKeyNode::parse_key_values(file, count, offset) else { return "- list".into() };
    let mut plain = true;
    for e in entries {
        let at = e as usize + c.c as usize;
        let told = value(&Case { tag: 7, a: at.min(u32::MAX as usize) as u32, b: 0, c: 0, d: 0, e: 0, name: vec![] }, file, Form::Converted);
        let flags = u16_at(image, at.saturating_add(20)).unwrap_or(0);
        plain &= !told.ends_with("error") && !told.starts_with("- name") && (flags & !KNOWN_VALUE_FLAGS == 0 && flags & 1 == 1);
    }
    let mut node = CellKeyNode::default();
    node.detail.set_number_of_key_values(&count, 0);
    node.detail.set_key_values_list_offset_relative(&offset, 0);
    let _ = probe::read_values(&mut node, file, &mut State::default());
    let name: String = c.name.iter().map(|&b| b as char).collect();
    let told = match node.get_value(&name) {
        Some(v) => {
            let d = &v.detail;
            format!("ok {} {} {} {} {} {} {} {}", v.file_offset_absolute, d.size(), !v.is_free() as u8, d.value_name_size(), d.data_size_raw(), d.data_offset_relative(), d.data_type_raw(), d.flags_raw())
        }
        None => "none".into(),
    };
    if plain { told } else { format!("- names {told}") }
}

/// Not among what 01 compares: one list by itself, its signature and count, by the Rust's four parsers.
fn one_list(c: &Case, file: &FileInfo) -> String {
    let Some(s) = file.buffer.get(c.a as usize..) else { return "error".into() };
    // a leaf list tells its entries only with a base added: 0, so that no sum passes
    let told = |sign: &[u8; 2], n: usize| format!("ok {} {n}", u16::from_le_bytes(*sign));
    if let Ok((_, l)) = sub_key_list_ri::SubKeyListRi::from_bytes(s) { return told(b"ri", l.items.len()); }
    if let Ok((_, l)) = sub_key_list_lf::SubKeyListLf::from_bytes()(s) { return told(b"lf", l.get_offset_list(0).len()); }
    if let Ok((_, l)) = sub_key_list_lh::SubKeyListLh::from_bytes()(s) { return told(b"lh", l.get_offset_list(0).len()); }
    if let Ok((_, l)) = sub_key_list_li::SubKeyListLi::from_bytes()(s) { return told(b"li", l.get_offset_list(0).len()); }
    "error".into()
}

/// What `read_from_slice` and `read_sub_keys_internal`, which call these two, hand on: how many, and how many log lines.
fn callers(c: &Case, file: &mut FileInfo) -> String {
    file.hbin_offset_absolute = c.c as usize;
    let mut node = CellKeyNode::default();
    let mut state = State::default();
    let found = if c.tag == 4 {
        node.detail.set_number_of_key_values(&c.a, 0);
        node.detail.set_key_values_list_offset_relative(&(c.b as i32), 0);
        if c.a > 0 && probe::read_values(&mut node, file, &mut state).is_err() {
            node.logs.add(crate::log::LogCode::WarningParse, &"Unable to parse values"); // as read_from_slice does
        }
        node.value_iter().count()
    } else {
        node.detail.set_number_of_sub_keys(&c.a, 0);
        node.detail.set_sub_keys_list_offset_relative(&c.b, 0);
        node.read_sub_keys_internal(file, &mut state, &crate::filter::Filter::new(), None, false).0.len()
    };
    format!("found {found}, {} log lines", node.logs.get().map_or(0, |l| l.len()))
}

/// Not in 01's domain: the Rust looks at a bin's signature only.
fn bin(c: &Case, file: &FileInfo) -> String {
    match file.buffer.get(c.a as usize..).map(|s| crate::hive_bin_header::HiveBinHeader::from_bytes(file, s)) {
        Some(Ok((_, h))) => format!("- none header {} {}", h.offset_from_first_hbin, h.size),
        _ => "- none error".into(),
    }
}

/// A look ahead of value data, at the input alone: the bytes are there in cells that hold them (Right); some are not there or the
/// resident size is above 4, where the Rust gives no bytes and a log line (Fault); or why the case is not compared.
#[derive(PartialEq)]
enum Held { Right, Fault, Why(&'static str) }
fn held(image: &[u8], base: u32, minor: u32, raw: u32, offset: u32) -> Held {
    const SEGMENT: usize = 16344;
    if raw >> 31 == 1 { return if raw & 0x7fff_ffff > 4 { Held::Fault } else { Held::Right }; }
    let there = |at: usize, n: usize| at + n <= image.len();
    let magnitude = |at: usize| (u32_at(image, at).unwrap() as i32).unsigned_abs() as usize;
    let holds = |at: usize, n: usize| magnitude(at) >= n && there(at, magnitude(at));
    // a cell whose first n bytes are there: does its size word say so?
    let cell = |at: usize, n: usize| if !there(at, n) { Held::Fault } else if holds(at, n) { Held::Right } else { Held::Why("cell") };
    let (at, size, base) = (offset as usize + base as usize, raw as usize, base as usize);
    if size == 0 { return if there(at, 4) { Held::Right } else { Held::Why("nothing") }; }
    let letters = image.get(at + 4..at + 6) == Some(&b"db"[..]);
    if minor <= 3 || size <= SEGMENT { return if size > SEGMENT && letters { Held::Why("version") } else { cell(at, 4 + size) }; }
    if !there(at, 12) { return Held::Fault; }
    if !letters { return if there(at, 4 + size) { Held::Why("letters") } else { Held::Fault }; }
    if cell(at, 12) != Held::Right { return Held::Why("cell"); }
    let n = size.div_ceil(SEGMENT);
    if u16_at(image, at + 6).unwrap() as usize != n { return Held::Why("count"); }
    let list = u32_at(image, at + 8).unwrap() as usize + base;
    let told = cell(list, 4 + 4 * n);
    if told != Held::Right { return told; }
    for i in 0..n {
        let (at, part) = (u32_at(image, list + 4 + 4 * i).unwrap() as usize + base, SEGMENT.min(size - SEGMENT * i));
        // the Rust takes a segment's size word as a limit of its bytes, the size word counted in
        if !there(at, 4) || magnitude(at) >= part && !there(at, 4 + part) { return Held::Fault; }
        if !holds(at, 4 + part) { return Held::Why("cell"); }
    }
    Held::Right
}
/// The bytes of a type that has a fixed number of them.
fn type_length(raw: u32) -> usize {
    match raw & 0xfff {
        0x101 => 1,
        0x102 | 0x103 => 2,
        4 | 5 | 0x104 | 0x105 => 4,
        0xb | 0x10 | 0x106 | 0x107 => 8,
        _ => usize::MAX,
    }
}

/// A value record of the case's words, of type REG_BIN.
fn made_up(c: &Case) -> [u8; 24] {
    let mut made = [0u8; 24];
    for (at, x) in [(0, -24i32 as u32), (8, c.a), (12, c.b), (16, 3), (20, 1)] { made[at..at + 4].copy_from_slice(&x.to_le_bytes()); }
    made[4..6].copy_from_slice(b"vk");
    made
}

/// What `read_value_bytes` hands on: the bytes, the first and the last ones in hex, and how many log lines.
fn bytes_found(c: &Case, file: &mut FileInfo) -> String {
    file.hbin_offset_absolute = c.c as usize;
    let (made, at) = (made_up(c), if c.tag == 21 { 0 } else { c.a as usize });
    let bytes = if c.tag == 21 { Some(&made[..]) } else { file.buffer.get(at..) };
    let Some(Ok((_, mut v))) = bytes.map(|s| CellKeyValue::from_bytes(s, at, None, false)) else { return "error".into() };
    v.read_value_bytes(file, &mut State::default());
    let data = v.detail.value_bytes().unwrap_or_default();
    let shown = if data.len() <= 16 { hex(&data) } else { format!("{} .. {}", hex(&data[..4]), hex(&data[data.len() - 4..])) };
    format!("{} bytes {shown}, {} log lines", data.len(), v.logs.get().map_or(0, |l| l.len()))
}

/// Not among what 01 compares: `read_value_bytes` of a record, for tag 21 of one that is made up of the case's words, of type REG_BIN.
/// `error` where it gives no bytes and a log line. Its bytes are laid into a buffer as the case has it.
fn data(c: &Case, file: &mut FileInfo) -> String {
    file.hbin_offset_absolute = c.c as usize;
    let made = made_up(c);
    let (at, mut why) = if c.tag == 21 { (0, None) } else {
        let record = value(&Case { tag: 7, name: vec![], ..*c }, file, Form::Converted);
        (c.a as usize, record.strip_prefix("- ").map(|s| s.split(' ').next().unwrap().to_string()))
    };
    let bytes = if c.tag == 21 { Some(&made[..]) } else { file.buffer.get(at..) };
    let told = if let Some(Ok((_, mut v))) = bytes.map(|s| CellKeyValue::from_bytes(s, at, None, false)) {
        let lines = |v: &CellKeyValue| v.logs.get().map_or(0, |l| l.len());
        let before = lines(&v);
        let (raw, offset) = (v.detail.data_size_raw(), v.detail.data_offset_relative());
        // the Rust gathers all segments, whatever the room
        let cell = file.buffer.get(offset as usize + c.c as usize..).unwrap_or(&[]);
        if raw >> 31 == 0 && raw > 1 << 20 && CellBigData::is_big_data_block(cell) { return "- big".into(); }
        v.read_value_bytes(file, &mut State::default());
        let (failed, data) = (lines(&v) > before, v.detail.value_bytes().unwrap_or_default());
        let ahead = held(&file.buffer, c.c, c.d, raw, offset);
        if failed && !data.is_empty() || ahead == Held::Right && failed || ahead == Held::Fault && !failed { fault("value data"); }
        let size = (raw & 0x7fff_ffff) as usize;
        let other = match ahead {
            Held::Why(x) => Some(x),
            Held::Right if size > type_length(v.detail.data_type_raw()) => Some("type"),
            Held::Right if size > c.e as usize => Some("room"),
            _ => None,
        };
        why = why.or(other.map(|x| x.to_string()));
        let mut out: Vec<u8> = (0..c.e).map(|i| (i + 1).wrapping_mul(0x9e3779b1) as u8).collect();
        if failed { "error".into() }
        else if data.len() > out.len() { format!("ok {}", data.len()) }
        else { out[..data.len()].copy_from_slice(&data); format!("ok {} {}", data.len(), part(&out)) }
    } else { "error".into() };
    match why { Some(w) => format!("- {w} {told}"), None => told }
}

pub fn answer(c: &Case, file: &mut FileInfo, form: Form) -> String {
    if form == Form::Callers && matches!(c.tag, 4 | 5) { return callers(c, file); }
    if form == Form::Callers && matches!(c.tag, 21 | 22) { return bytes_found(c, file); }
    let told = catch_unwind(AssertUnwindSafe(|| match c.tag {
        1 => match BaseBlockBase::calculate_checksum(&file.buffer) { Ok(x) => format!("ok {x}"), Err(_) => "error".into() },
        2 => base_block(&file.buffer, form),
        3 => format!("ok {}", CellBigData::is_big_data_block(&file.buffer) as u8),
        4 => value_list(c, file),
        5 => walk(c, file, form),
        6 => key(c, file, form),
        7 => value(c, file, form),
        8 => lookup(c, file),
        10 => bin(c, file),
        11 => one_list(c, file),
        21 | 22 => data(c, file),
        _ => "- none".into(),
    }));
    told.unwrap_or_else(|_| "panic".into())
}
