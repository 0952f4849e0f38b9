//! `desk show`: any model file as text, also a damaged one.

use crate::args::*;
use crate::build::sizes;
use crate::files;
use crate::second::*;
use crate::text::model_print::model_text;
use crate::text::names::{kind_word, Named};

/// Shows a model file; of a damaged one, what can still be read.
pub fn main(given: &[String]) -> Outcome {
    let args = Args::sort(given, &[], &["--records"])?;
    args.expect(&["the model file"])?;
    let path = &args.plain[0];
    let file = files::read(path)?;
    let loaded = load(&file);
    if let (Ok(model), None) = (&loaded, args.option("--records")) {
        return files::print(&shown(model, &file));
    }
    if let Err(r) = &loaded {
        files::print(&trouble_text(path, &file, r))?;
        files::print(&format!("{}\n", checks_aside(&file, r)))?;
    }
    files::print(&records_text(&file))?;
    match loaded {
        Ok(_) => Ok(()),
        Err(r) => refused(files::refusal_text(path, &r)),
    }
}

/// The text of a model that loaded, with a comment on its sizes.
pub fn shown(model: &Model, file: &[u8]) -> String {
    let named = Named::unnamed(model.clone());
    format!("# {}\n{}", sizes(model, file), model_text(&named))
}

/// The refusal, where it goes wrong and what was expected there.
pub fn trouble_text(path: &str, file: &[u8], r: &Refused) -> String {
    let mut text = files::refusal_text(path, r) + "\n";
    if r.number == 1 {
        text += &format!("  found: {} bytes\n", file.len());
    } else {
        text += &format!("  where: {}\n", place_text(file, &r.place));
        text += &format!("  found: {}\n", r.found);
    }
    if crate::text::is_text(file) {
        text += "  the file is text; 'desk build' makes a model file of a model text\n";
    }
    text += &format!("  expected: {}", r.expected);
    if r.number == 2 {
        let block = &file[r.place.block * BLOCK..][..508];
        text += &format!(", which is {}", check(block));
    }
    text + "\n"
}

/// What would be wrong with a file of wrong checks if they were right.
pub fn checks_aside(file: &[u8], r: &Refused) -> String {
    if r.number != 2 {
        return String::new();
    }
    let mut mended = file.to_vec();
    for block in mended.chunks_exact_mut(BLOCK) {
        let sum = check(&block[..508]).to_le_bytes();
        block[508..].copy_from_slice(&sum);
    }
    match load(&mended) {
        Ok(_) => "with right checks the file would load\n".to_string(),
        Err(next) => trouble_text("with right checks", &mended, &next),
    }
}

/// Block, record and byte in words.
fn place_text(file: &[u8], place: &Place) -> String {
    let in_block = place.byte - place.block * BLOCK;
    let kind = file[place.block * BLOCK + 2];
    let byte = place.byte;
    match place.record {
        Some(i) => {
            let in_record = in_block - 4 - i * RECORD;
            let field = field_word(kind, i, in_record);
            format!(
                "block {}, record {i}, byte {in_record} of the record ({field}), byte {byte} of the file",
                place.block
            )
        }
        None => format!(
            "block {}, byte {in_block} of the block ({}), byte {byte} of the file",
            place.block,
            frame_word(in_block)
        ),
    }
}

/// What a byte of a block's frame holds.
fn frame_word(byte: usize) -> &'static str {
    match byte {
        0 | 1 => "number",
        2 => "kind",
        3 => "records used",
        508.. => "check",
        _ => "room",
    }
}

/// What a byte of a record holds.
fn field_word(kind: u8, record: usize, byte: usize) -> &'static str {
    let fields: &[&str] = match (kind, record) {
        (HEADER_BLOCK, 0) => &["subjects", "start mask", "start mask"],
        (HEADER_BLOCK, _) => &["subject", "states", "initial state"],
        (STATE_BLOCK, _) => &[
            "subject",
            "state",
            "kind",
            "exits",
            "sender",
            "type",
            "timeout duration",
            "timeout duration",
            "timeout target",
            "cancel target",
            "receiver mask",
            "receiver mask",
        ],
        (EXIT_BLOCK, _) => &["subject", "state", "exit", "target", "sender", "type"],
        _ => &["owner", "sender", "type", "limit"],
    };
    fields.get(byte).copied().unwrap_or("not used")
}

/// Every block and the records in it as they stand.
pub fn records_text(file: &[u8]) -> String {
    let mut text = String::new();
    let blocks = file.len() / BLOCK;
    for b in 0..blocks.min(MOST_BLOCKS) {
        text += &block_text(file, b);
    }
    if blocks > MOST_BLOCKS {
        text += &format!("and {} blocks more\n", blocks - MOST_BLOCKS);
    }
    match file.len() % BLOCK {
        0 => {}
        rest => text += &format!("and a piece of {rest} bytes that is no whole block\n"),
    }
    text
}

/// One block: its frame, then its records.
fn block_text(file: &[u8], b: usize) -> String {
    let block = &file[b * BLOCK..][..BLOCK];
    let number = u16::from_le_bytes([block[0], block[1]]);
    let kind = block[2];
    let sum = check(&block[..508]);
    let judged = match check_in(block) {
        stands if stands == sum => "right".to_string(),
        stands => format!("wrong ({stands}, counted {sum})"),
    };
    let mut text = format!(
        "block {b}: number {number}, kind {kind} ({}), records {}, check {judged}\n",
        block_word(kind),
        block[3]
    );
    for i in 0..RECORDS {
        let bytes = record(file, b, i);
        if !bytes.is_empty() {
            let hex: Vec<String> = bytes.iter().map(|x| format!("{x:02x}")).collect();
            let words = record_words(kind, i, bytes);
            text += &format!("  {i:2}  {}  {words}\n", hex.join(" "));
        }
    }
    text
}

fn block_word(kind: u8) -> &'static str {
    match kind {
        HEADER_BLOCK => "header",
        STATE_BLOCK => "states",
        EXIT_BLOCK => "exits",
        LIMIT_BLOCK => "limits",
        _ => "no such kind",
    }
}

/// A record in words, by the kind of its block.
fn record_words(kind: u8, i: usize, r: &[u8]) -> String {
    let wide = |at: usize| u16::from_le_bytes([r[at], r[at + 1]]);
    match (kind, i) {
        (HEADER_BLOCK, 0) => format!("subjects {}, start mask {:#06x}", r[0], wide(1)),
        (HEADER_BLOCK, _) => {
            format!("subject {}: states {}, initial {}", r[0], r[1], r[2])
        }
        (STATE_BLOCK, _) => state_words(r),
        (EXIT_BLOCK, _) => format!(
            "subject {}, state {}, exit {}: to {}, {} from {}",
            r[0],
            r[1],
            r[2],
            r[3],
            or_any(r[5]),
            or_any(r[4])
        ),
        (LIMIT_BLOCK, _) => format!(
            "owner {}: {} from {}, limit {}",
            r[0],
            or_any(r[2]),
            or_any(r[1]),
            r[3]
        ),
        _ => String::new(),
    }
}

/// A state record in words.
fn state_words(r: &[u8]) -> String {
    let wide = |at: usize| u16::from_le_bytes([r[at], r[at + 1]]);
    let mut text = format!(
        "subject {}, state {}: kind {} ({}), exits {}",
        r[0],
        r[1],
        r[2],
        kind_word(r[2]),
        r[3]
    );
    if matches!(r[2], CLOSE | OPEN | ASK_EMPTY) || r[4] != ANY || r[5] != ANY {
        text += &format!(", {} from {}", or_any(r[5]), or_any(r[4]));
    }
    if r[8] != NONE || wide(6) != 0 {
        text += &format!(", timeout {} to {}", wide(6), r[8]);
    }
    if r[9] != NONE {
        text += &format!(", cancel to {}", r[9]);
    }
    if wide(10) != 0 {
        text += &format!(", receivers {:#06x}", wide(10));
    }
    text
}

fn or_any(value: u8) -> String {
    match value {
        ANY => "any".to_string(),
        x => x.to_string(),
    }
}
