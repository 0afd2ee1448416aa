//! Compares this crate's view of the C interface with `jichurpa.h`.

use super::*;
use crate::answers::ArrivalEffect;
use crate::words::*;
use std::collections::BTreeMap;
use std::fs;
use std::path::{Path, PathBuf};
use std::process::Command;

/// The header, which stands beside this crate.
fn header() -> PathBuf {
    Path::new(env!("CARGO_MANIFEST_DIR")).join("../c/jichurpa.h")
}

/// The header without comments and preprocessor lines, with single spaces.
fn declarations() -> String {
    let text = fs::read_to_string(header()).expect("bindings/c/jichurpa.h is readable");
    let mut plain = String::new();
    let mut rest = text.as_str();
    while let Some((before, after)) = rest.split_once("/*") {
        plain.push_str(before);
        rest = after.split_once("*/").expect("each comment ends").1;
    }
    plain.push_str(rest);
    let lines = plain.lines().filter(|line| !line.trim_start().starts_with('#'));
    lines.flat_map(str::split_whitespace).collect::<Vec<_>>().join(" ")
}

/// `RecvImm` as `RECV_IMM`.
fn screaming(camel: &str) -> String {
    let mut text = String::new();
    for (place, letter) in camel.char_indices() {
        if letter.is_uppercase() && place > 0 {
            text.push('_');
        }
        text.push(letter.to_ascii_uppercase());
    }
    text
}

/// `jichurpa_qp_options` as `QpOptions`.
fn camel(name: &str) -> String {
    let words = name.strip_prefix("jichurpa_").expect("a type of the header").split('_');
    words.map(|word| word[..1].to_uppercase() + &word[1..]).collect()
}

/// The enumerators of an enumeration of the header, with their numbers.
fn enumerators(name: &str) -> Vec<(String, u32)> {
    let text = declarations();
    let body = text.split_once(&format!("enum jichurpa_{name} {{")).expect("the header has it").1;
    let body = body.split_once('}').expect("it ends").0;
    let entries = body.split(',').map(str::trim).filter(|entry| !entry.is_empty());
    let parted = entries.map(|entry| entry.split_once(" = ").expect("it has a number"));
    parted.map(|(name, number)| (name.to_string(), number.parse().expect("a number"))).collect()
}

/// Compares names with their numbers with an enumeration of the header.
fn compare(name: &str, prefix: &str, numbers: &[(&str, u32)]) {
    let ours: Vec<_> = numbers.iter().map(|(name, number)| (format!("{prefix}{name}"), *number)).collect();
    assert_eq!(ours, enumerators(name), "of jichurpa_{name}");
}

#[test]
fn constants_are_those_of_the_header() {
    compare("result", "JICHURPA_", result::NUMBERS);
    compare("answer", "JICHURPA_", answer::NUMBERS);
}

#[test]
fn enums_are_those_of_the_header() {
    for (name, prefix, numbers) in [
        ("refusal", "JICHURPA_REFUSED_", Refusal::NUMBERS),
        ("why", "JICHURPA_WHY_", RefusalReason::NUMBERS),
        ("silent_why", "JICHURPA_SILENT_", DropReason::NUMBERS),
        ("not_counted_why", "JICHURPA_NOT_COUNTED_", NotCounted::NUMBERS),
        ("wc_kind", "JICHURPA_WC_", CompletionKind::NUMBERS),
        ("wc_status", "JICHURPA_WC_", CompletionStatus::NUMBERS),
        ("state", "JICHURPA_", State::NUMBERS),
        ("dump_why", "JICHURPA_DUMP_", FaultReason::NUMBERS),
    ] {
        let names: Vec<_> = numbers.iter().map(|(name, number)| (screaming(name), *number)).collect();
        let names: Vec<_> = names.iter().map(|(name, number)| (name.as_str(), *number)).collect();
        compare(name, prefix, &names);
    }
}

#[test]
fn effects_of_arrivals_are_those_of_the_header() {
    for (name, number) in enumerators("took") {
        let outcome = Outcome { answer: answer::TOOK, cause: number, detail: 1, ..Outcome::default() };
        let effect: ArrivalEffect = outcome.arrival().expect("it is known").effect;
        let ours = format!("{effect:?}");
        let ours = ours.split('(').next().expect("it has a name");
        assert_eq!(format!("JICHURPA_TOOK_{}", screaming(ours)), name);
    }
    let behind = enumerators("took").len() as u32 + 1;
    let outcome = Outcome { answer: answer::TOOK, cause: behind, ..Outcome::default() };
    assert!(outcome.arrival().is_err());
}

/// A parameter of the header as this crate writes it.
fn parameter(text: &str) -> String {
    let (kind, name) = text.rsplit_once([' ', '*']).expect("a type and a name");
    let pointer = text.contains('*');
    let constant = kind.starts_with("const ");
    let kind = kind.trim_start_matches("const ").trim_end_matches(['*', ' ']);
    let kind = match kind {
        "uint8_t" => "u8".to_string(),
        "uint32_t" => "u32".to_string(),
        "uint64_t" => "u64".to_string(),
        "size_t" => "usize".to_string(),
        kind => camel(kind),
    };
    match (pointer, constant) {
        (false, _) => format!("{name}: {kind}"),
        (true, true) => format!("{name}: *const {kind}"),
        (true, false) => format!("{name}: *mut {kind}"),
    }
}

/// The functions of the header, as this crate declares them.
fn functions_of_header() -> BTreeMap<String, Vec<String>> {
    let text = declarations();
    let mut functions = BTreeMap::new();
    for part in text.split(';') {
        let Some((head, parameters)) = part.trim().strip_suffix(')').and_then(|part| part.split_once('('))
        else {
            continue;
        };
        let words: Vec<_> = head.split(' ').collect();
        let [.., kind @ ("jichurpa_result" | "uint32_t"), name] = words[..] else { continue };
        let mut parts: Vec<_> =
            parameters.split(", ").filter(|text| *text != "void").map(parameter).collect();
        parts.push(kind.replace("uint32_t", "u32"));
        functions.insert(name.to_string(), parts);
    }
    functions
}

/// The functions that this crate declares.
fn functions_of_crate() -> BTreeMap<String, Vec<String>> {
    let text = include_str!("ffi.rs").split_whitespace().collect::<Vec<_>>().join(" ");
    let block = text.split_once("unsafe extern \"C\" {").expect("it has the block").1;
    let block = block.split_once('}').expect("it ends").0;
    let mut functions = BTreeMap::new();
    for part in block.split(';').filter_map(|part| part.trim().strip_prefix("pub fn ")) {
        let (name, rest) = part.split_once('(').expect("it has parameters");
        let (parameters, kind) = rest.split_once(") -> ").expect("it has a result");
        let parameters = parameters.split(',').map(str::trim).filter(|text| !text.is_empty());
        let mut parts: Vec<_> = parameters.map(str::to_string).collect();
        parts.push(kind.replace("Code", "jichurpa_result"));
        functions.insert(name.to_string(), parts);
    }
    functions
}

#[test]
fn functions_are_those_of_the_header() {
    let (ours, theirs) = (functions_of_crate(), functions_of_header());
    assert!(theirs.contains_key("jichurpa_arrive"), "the header is read");
    assert_eq!(ours, theirs);
}

/// An expression of C, and the number that it must have.
type Line = (String, u64);

/// The size and the alignment of a struct, the size and the place of each field, and that nothing lies between them.
macro_rules! layout {
    ($lines:ident, $name:literal, $value:expr, $kind:ident { $($field:ident)* }) => {{
        let value: $kind = $value;
        let mut sum = 0;
        $lines.push((format!("sizeof({})", $name), size_of::<$kind>() as u64));
        $lines.push((format!("_Alignof({})", $name), align_of::<$kind>() as u64));
        $(
            let size = size_of_val(&value.$field);
            sum += size;
            $lines.push((format!("sizeof((({}){{0}}).{})", $name, stringify!($field)), size as u64));
            let place = std::mem::offset_of!($kind, $field);
            $lines.push((format!("offsetof({}, {})", $name, stringify!($field)), place as u64));
        )*
        assert_eq!(sum, size_of::<$kind>(), "all fields of {} are here", $name);
    }};
}

/// All structs of the header.
fn layouts() -> Vec<Line> {
    let mut lines = Vec::new();
    let handles = (Device::NOTHING, Image::NOTHING, Reader::NOTHING);
    layout!(lines, "jichurpa_name", Name::default(), Name { bytes });
    layout!(lines, "jichurpa_object", Object::default(), Object { context name });
    layout!(lines, "jichurpa_address", Address::default(), Address { ip port reserved });
    layout!(lines, "jichurpa_outcome", Outcome::default(),
        Outcome { answer cause detail number local_key remote_key count sent });
    layout!(lines, "jichurpa_datagram", Datagram::default(), Datagram { to number length has_number reserved });
    layout!(lines, "jichurpa_qp_options", QpOptions::default(),
        QpOptions { domain send_cq recv_cq send_depth recv_depth });
    layout!(lines, "jichurpa_terms", Terms::default(),
        Terms { mtu own_start peer_start retry rnr reads reserved });
    layout!(lines, "jichurpa_request", Request::default(),
        Request { id local remote swap_add compare kind length local_key remote_key imm flags });
    layout!(lines, "jichurpa_receive", Receive::default(), Receive { id local local_key length });
    layout!(lines, "jichurpa_completion", Completion::default(),
        Completion { id qp kind status length imm flags });
    layout!(lines, "jichurpa_end", End::default(), End {
        name una next last number peer state untold moves rnr rnr_wait may_send in_flight reserved
    });
    layout!(lines, "jichurpa_fault", Fault::default(), Fault { place why reserved });
    layout!(lines, "jichurpa_device", handles.0, Device { at there });
    layout!(lines, "jichurpa_image", handles.1, Image { at there });
    layout!(lines, "jichurpa_reader", handles.2, Reader { at there });
    lines
}

/// The limits and bits of the header.
fn numbers() -> Vec<Line> {
    let rights = [
        ("LOCAL_WRITE", crate::Rights::LOCAL_WRITE),
        ("REMOTE_WRITE", crate::Rights::REMOTE_WRITE),
        ("REMOTE_READ", crate::Rights::REMOTE_READ),
        ("REMOTE_ATOMIC", crate::Rights::REMOTE_ATOMIC),
    ];
    let limits = [
        ("ABI", u64::from(ABI)),
        ("NAME_BYTES", NAME_BYTES as u64),
        ("MAX_DATAGRAM", crate::MAX_DATAGRAM as u64),
        ("MAX_BASE", crate::MAX_BASE),
        ("MAX_REGION", crate::MAX_REGION.into()),
        ("MAX_CAPACITY", crate::MAX_CAPACITY.into()),
        ("MAX_DEPTH", crate::MAX_DEPTH.into()),
        ("MAX_MESSAGE", crate::MAX_MESSAGE.into()),
        ("MAX_QP_NUMBER", crate::MAX_QP_NUMBER.into()),
        ("MAX_PSN", crate::MAX_PSN.into()),
        ("PORT", crate::PORT.into()),
    ];
    let bits = rights.map(|(name, right)| (name, u64::from(right.bits())));
    let all = limits.into_iter().chain(bits);
    all.map(|(name, number)| (format!("JICHURPA_{name}"), number)).collect()
}

/// Kinds and flags as a request has them.
fn request_numbers() -> Vec<Line> {
    use crate::{LocalRange, RemoteAddress, WorkRequest};
    let local = LocalRange { key: 1, address: 2, length: 8 };
    let remote = RemoteAddress { key: 3, address: 4 };
    let plain = |request: WorkRequest| request.unsignaled().to_ffi();
    let kinds = [
        ("WRITE", plain(WorkRequest::write(1, local, remote)).kind),
        ("SEND", plain(WorkRequest::send(1, local)).kind),
        ("READ", plain(WorkRequest::read(1, local, remote)).kind),
        ("COMPARE_SWAP", plain(WorkRequest::compare_swap(1, local, remote, 0, 0)).kind),
        ("FETCH_ADD", plain(WorkRequest::fetch_add(1, local, remote, 0)).kind),
        ("SIGNALED", WorkRequest::send(1, local).to_ffi().flags),
        ("FENCE", plain(WorkRequest::send(1, local).fenced()).flags),
        ("HAS_IMM", plain(WorkRequest::send_imm(1, local, 0)).flags),
    ];
    kinds.map(|(name, number)| (format!("JICHURPA_{name}"), number.into())).to_vec()
}

/// What a compiler of C says of expressions over the header; None where there is no compiler.
fn said_by_cc(expressions: &[Line]) -> Option<Vec<u64>> {
    let folder = std::env::temp_dir().join(format!("jichurpa-layout-{}", std::process::id()));
    fs::create_dir_all(&folder).expect("a folder for the program");
    let (source, program) = (folder.join("layout.c"), folder.join("layout"));
    let mut text = format!("#include \"{}\"\n#include <stdio.h>\nint main(void)\n{{\n", header().display());
    for (expression, _) in expressions {
        text += &format!("    printf(\"%llu\\n\", (unsigned long long)({expression}));\n");
    }
    fs::write(&source, text + "    return 0;\n}\n").expect("the program is written");
    let compiler = std::env::var("CC").unwrap_or_else(|_| "cc".to_string());
    let compiled =
        Command::new(compiler).arg("-std=c11").arg(&source).arg("-o").arg(&program).status().ok()?;
    assert!(compiled.success(), "the program is compiled");
    let output = Command::new(&program).output().expect("the program runs");
    fs::remove_dir_all(&folder).expect("the folder is removed");
    let lines = String::from_utf8(output.stdout).expect("lines of numbers");
    Some(lines.lines().map(|line| line.parse().expect("a number")).collect())
}

#[test]
fn layouts_and_numbers_are_those_of_the_header() {
    let mut lines = layouts();
    lines.extend(numbers());
    lines.extend(request_numbers());
    let Some(said) = said_by_cc(&lines) else {
        println!("layouts: left out, since there is no compiler of C");
        return;
    };
    assert_eq!(said.len(), lines.len());
    for ((expression, ours), theirs) in lines.iter().zip(said) {
        assert_eq!(*ours, theirs, "{expression}");
    }
}
