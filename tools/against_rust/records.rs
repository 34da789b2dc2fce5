//! `records rust FILE` or `records c HEADER`: reads the records that a text declares and prints, for each, the lines by which its fields are listed
//! (`fields_of!` for the states of the published Rust, `record!` for the structs of the header). Fails at whatever it does not know, so that no field
//! of a state can be passed over.

use std::process::ExitCode;
use std::{env, fs};

type Known<T> = Result<T, String>;

/// A record and its fields, each a name and a type of Rust.
struct Record {
    name: String,
    fields: Vec<(String, String)>,
}

impl Record {
    fn print(&self, with: &str) {
        println!("{with}! {{ {} {{", self.name);
        for (name, field_type) in &self.fields {
            println!("    {name}: {field_type},");
        }
        println!("}} }}");
    }
}

fn is_name(word: &str) -> bool {
    !word.is_empty() && word.bytes().all(|b| b.is_ascii_alphanumeric() || b == b'_')
}

/// A declaration without its visibility.
fn bare(line: &str) -> &str {
    let line = line.trim();
    let Some(after) = line.strip_prefix("pub") else { return line };
    match after.strip_prefix('(') {
        Some(within) => within.split_once(')').map_or(line, |(_, rest)| rest.trim_start()),
        None => after.trim_start(),
    }
}

/// `name: type,` of the published text.
fn rust_field(line: &str) -> Known<(String, String)> {
    let known_type = |t: &str| matches!(t, "bool" | "i64" | "f64" | "Option<f64>") || (is_name(t) && t.ends_with("State"));
    let field = bare(line).strip_suffix(',').and_then(|f| f.split_once(": "));
    match field {
        Some((name, t)) if is_name(name) && known_type(t) => Ok((name.into(), t.into())),
        _ => Err(format!("a field that is not known: {line}")),
    }
}

/// `type name;` of the header.
fn c_field(line: &str) -> Known<(String, String)> {
    let code = line.split("/*").next().unwrap_or(line).trim();
    let field = code.strip_suffix(';').and_then(|f| f.split_once(' '));
    let Some((c_type, name)) = field.filter(|(_, name)| is_name(name)) else {
        return Err(format!("a field that is not known: {line}"));
    };
    let t = match c_type {
        "bool" | "uint8_t" => "u8",
        "uint16_t" => "u16",
        "int64_t" => "i64",
        "double" => "f64",
        record if is_name(record) && record.starts_with("AirBox") => record,
        _ => return Err(format!("a type that is not known: {line}")),
    };
    Ok((name.into(), t.into()))
}

/// The lines of a record from behind its opening brace, up to the line that begins with the closing one.
fn body<'a>(lines: &mut impl Iterator<Item = &'a str>, field: fn(&str) -> Known<(String, String)>) -> Known<Vec<(String, String)>> {
    let mut fields = Vec::new();
    for line in lines {
        let text = line.trim();
        if text.starts_with('}') {
            return Ok(fields);
        }
        if !text.is_empty() && !text.starts_with("//") && !text.starts_with("#[") {
            fields.push(field(line)?);
        }
    }
    Err("a record without an end".into())
}

/// States are listed, inputs and outputs of a call are passed over, and nothing else may hold a memory.
fn rust_records(text: &str) -> Known<Vec<Record>> {
    let mut lines = text.lines();
    let mut records = Vec::new();
    while let Some(line) = lines.next() {
        let declaration = bare(line);
        let keyword = declaration.split([' ', '!']).next().unwrap_or("");
        match keyword {
            "struct" => {
                let name = declaration.strip_prefix("struct ").and_then(|d| d.strip_suffix(" {"));
                let name = name.filter(|n| is_name(n)).ok_or(format!("a struct that is not known: {line}"))?;
                if name.ends_with("State") {
                    records.push(Record { name: name.into(), fields: body(&mut lines, rust_field)? });
                } else if !name.ends_with("Input") && !name.ends_with("Output") {
                    return Err(format!("a struct that is not known: {line}"));
                }
            }
            "enum" | "union" | "static" | "thread_local" | "type" | "macro_rules" => {
                return Err(format!("a declaration that is not known: {line}"));
            }
            _ => {}
        }
    }
    Ok(records)
}

fn c_records(text: &str) -> Known<Vec<Record>> {
    let mut lines = text.lines();
    let mut records = Vec::new();
    while let Some(line) = lines.next() {
        if let Some(declaration) = line.strip_prefix("typedef struct ") {
            let name = declaration.strip_suffix(" {").filter(|n| is_name(n)).ok_or(format!("a struct that is not known: {line}"))?;
            records.push(Record { name: name.into(), fields: body(&mut lines, c_field)? });
        }
    }
    Ok(records)
}

/// The header's assertions of sizes and offsets, for the records as Rust lays them out.
fn c_layout(text: &str) -> Known<Vec<String>> {
    let mut facts = Vec::new();
    for line in text.lines().filter(|l| l.starts_with("AIR_BOX_ASSERT(")) {
        let fact = line.strip_prefix("AIR_BOX_ASSERT(").and_then(|l| l.strip_suffix(");")).and_then(|l| l.split_once(" == "));
        let size = |f: &str| f.strip_prefix("sizeof(").and_then(|f| f.strip_suffix(")")).map(|r| format!("size_of::<{r}>()"));
        let offset = |f: &str| f.strip_prefix("offsetof(").map(|f| format!("std::mem::offset_of!({f}"));
        let rust = fact.and_then(|(left, number)| Some(format!("assert!({} == {number})", size(left).or_else(|| offset(left))?)));
        facts.push(rust.ok_or(format!("an assertion that is not known: {line}"))?);
    }
    Ok(facts)
}

fn run(kind: &str, path: &str) -> Known<()> {
    let text = fs::read_to_string(path).map_err(|e| e.to_string())?;
    if kind == "rust" {
        rust_records(&text)?.iter().for_each(|r| r.print("\n#[cfg(fields)]\ncrate::fields::fields_of"));
        return Ok(());
    }
    c_records(&text)?.iter().for_each(|r| r.print("record"));
    c_layout(&text)?.iter().for_each(|fact| println!("const _: () = {fact};"));
    Ok(())
}

fn main() -> ExitCode {
    let words: Vec<String> = env::args().collect();
    let [_, kind, path] = &words[..] else {
        eprintln!("usage: records rust FILE | records c HEADER");
        return ExitCode::from(2);
    };
    match run(kind, path) {
        Ok(()) => ExitCode::SUCCESS,
        Err(text) => {
            eprintln!("records: {path}: {text}");
            ExitCode::FAILURE
        }
    }
}
