//! Declares the entries of another library as its header has them, and links its archive under other
//! names, so that both libraries are in one program.

use std::env;
use std::fs;
use std::path::{Path, PathBuf};
use std::process::Command;

/// The entries that every library has.
const ENTRIES: [&str; 4] = ["read_book", "make", "check", "follow"];

/// An entry that earlier libraries have not.
struct Later {
    name: &'static str,
    /// The constant that says whether it is there.
    there: &'static str,
    /// What it takes, for the function that stands for it where it is not.
    takes: &'static str,
}

const LATER: [Later; 2] = [
    Later {
        name: "read_log",
        there: "READS_LOGS",
        takes: "_tower: &[u8], _table: &[u8], _log: &[u8]",
    },
    Later {
        name: "why",
        there: "SHOWS_WHY",
        takes:
            "_tower: &[u8], _text: &[u8], _table: &[u8], _list: &mut [u8], _areas: [&mut [u8]; 0]",
    },
];

fn main() {
    println!("cargo:rerun-if-env-changed=BEFORE_LIBRARIES");
    let folder = env::var_os("BEFORE_LIBRARIES").expect("BEFORE_LIBRARIES is a folder");
    let folder = Path::new(&folder);
    assert!(folder.is_absolute(), "BEFORE_LIBRARIES is absolute");
    let [archive, header] = ["libsuccoryvise.a", "succoryvise.h"].map(|name| folder.join(name));
    for file in [&archive, &header] {
        println!("cargo:rerun-if-changed={}", file.display());
    }
    let header = fs::read_to_string(header).expect("the header of the other library");
    let out = PathBuf::from(env::var_os("OUT_DIR").expect("cargo says where to write"));
    fs::write(out.join("entries.rs"), declarations(&header)).expect("written");
    rename(&header, &archive, &out.join("libbefore.a"));
    println!("cargo:rustc-link-search=native={}", out.display());
    println!("cargo:rustc-link-lib=static=before");
}

/// How the declaration of an entry begins.
fn declared(entry: &str) -> String {
    format!("answer succoryvise_{entry}(")
}

fn has(header: &str, entry: &str) -> bool {
    header.contains(&declared(entry))
}

/// The entries that the header declares.
fn entries(header: &str) -> impl Iterator<Item = &'static str> + '_ {
    let later = LATER.iter().map(|later| later.name);
    let later = later.filter(|entry| has(header, entry));
    ENTRIES.into_iter().chain(later)
}

/// Copies the archive, with `before_NAME` for each entry, whatever its version, and no other name that
/// can be seen. Its functions begin at multiples of 64 bytes, as those of the other library then do
/// (`benchmarks/run`): the same code takes the same time.
fn rename(header: &str, archive: &Path, renamed: &Path) {
    let mut objcopy = Command::new("objcopy");
    objcopy.arg("--set-section-alignment=.text.*=64");
    for entry in entries(header) {
        let define = format!("#define succoryvise_{entry} ");
        let line = header.lines().find_map(|line| line.strip_prefix(&define));
        let usual = format!("succoryvise_{entry}");
        let name = line.unwrap_or(&usual);
        objcopy.arg(format!("--redefine-sym={name}=before_{entry}"));
        objcopy.arg(format!("--keep-global-symbol=before_{entry}"));
    }
    let status = objcopy.arg(archive).arg(renamed).status();
    assert!(status.expect("objcopy runs").success());
}

/// A parameter of an entry, as it is in Rust.
enum Parameter {
    Number(String),
    Input(String),
    Output(String),
    Area(String),
}

/// The type and the name of a field or a parameter.
fn parts(declared: &str) -> (&str, &str) {
    let (kind, name) = declared.trim().rsplit_once(' ').expect("a type and a name");
    match name.strip_prefix('*') {
        Some(name) if kind.starts_with("const") => ("input", name),
        Some(name) => ("output", name),
        None => (kind, name),
    }
}

/// What an entry writes to, but for the areas.
const OUTPUTS: [&str; 2] = ["out", "list"];

/// The parameters of an entry. A slice is a pointer and a length; what may be written is an area, but
/// for the output.
fn parameters(header: &str, entry: &str) -> Vec<Parameter> {
    let text = between(header, &declared(entry), ");");
    let mut declared = text.split(',').map(parts);
    let mut parameters = Vec::new();
    while let Some((kind, name)) = declared.next() {
        let slice = kind == "input" || kind == "output";
        if slice {
            let length = declared.next();
            assert_eq!(length, Some(("size_t", &format!("{name}_length")[..])));
        }
        let name = name.to_string();
        parameters.push(match kind {
            "input" => Parameter::Input(name),
            "output" if OUTPUTS.contains(&&*name) => Parameter::Output(name),
            "output" => Parameter::Area(name),
            _ => Parameter::Number(name),
        });
    }
    parameters
}

fn between<'a>(text: &'a str, from: &str, to: &str) -> &'a str {
    let (_, rest) = text.split_once(from).expect("declared in the header");
    rest.split_once(to).expect("declared to the end").0
}

/// The struct, the lengths of the areas and the functions.
fn declarations(header: &str) -> String {
    let mut text = "#[repr(C)]\n#[derive(Clone, Copy)]\npub struct Answer {\n".to_string();
    let fields = between(header, "struct succoryvise_answer {", "};");
    for line in fields.lines().filter(|line| line.contains(';')) {
        let (kind, name) = parts(line.split(';').next().expect("a field"));
        let kind = match kind {
            "uint32_t" => "u32",
            "uint8_t" => "u8",
            _ => "usize",
        };
        text += &format!("    pub {name}: {kind},\n");
    }
    let areas: Vec<String> = parameters(header, "make")
        .iter()
        .filter_map(|parameter| match parameter {
            Parameter::Area(name) => {
                let define = format!("#define SUCCORYVISE_{}_LENGTH ", name.to_uppercase());
                let line = header.lines().find_map(|line| line.strip_prefix(&define));
                Some(line.expect("the length of an area").to_string())
            }
            _ => None,
        })
        .collect();
    text += &format!(
        "}}\n\npub const AREAS: [usize; {}] = [{}];\n",
        areas.len(),
        areas.join(", ")
    );
    for entry in entries(header) {
        text += &function(entry, &parameters(header, entry));
    }
    for Later { name, there, takes } in LATER {
        let has = has(header, name);
        text += &format!("\npub const {there}: bool = {has};\n");
        if !has {
            text += &format!("\npub fn {name}({takes}) -> Answer {{\n    unreachable!()\n}}\n");
        }
    }
    // The first libraries had no third value.
    let (answer, third) = match fields.contains(" third;") {
        true => ("answer", "answer.third"),
        false => ("_answer", "0"),
    };
    text += &format!("\npub fn third({answer}: &Answer) -> usize {{\n    {third}\n}}\n");
    text
}

/// The declaration of a function, and the function that calls it with slices.
fn function(entry: &str, parameters: &[Parameter]) -> String {
    let [mut declared, mut taken, mut given] = [const { Vec::new() }; 3];
    let mut areas = Vec::new();
    for parameter in parameters {
        match parameter {
            Parameter::Number(name) => {
                declared.push(format!("{name}: usize"));
                taken.push(format!("{name}: usize"));
                given.push(name.clone());
            }
            Parameter::Input(name) => {
                declared.push(format!("{name}: *const u8, {name}_length: usize"));
                taken.push(format!("{name}: &[u8]"));
                given.push(format!("{name}.as_ptr(), {name}.len()"));
            }
            Parameter::Output(name) | Parameter::Area(name) => {
                declared.push(format!("{name}: *mut u8, {name}_length: usize"));
                given.push(format!("{name}.as_mut_ptr(), {name}.len()"));
                match parameter {
                    Parameter::Area(name) => areas.push(name.clone()),
                    _ => taken.push(format!("{name}: &mut [u8]")),
                }
            }
        }
    }
    let mut open = String::new();
    if !areas.is_empty() {
        taken.push(format!("areas: [&mut [u8]; {}]", areas.len()));
        open = format!("    let [{}] = areas;\n", areas.join(", "));
    }
    let [declared, taken, given] = [declared, taken, given].map(|words| words.join(", "));
    format!(
        "\nextern \"C\" {{\n    fn before_{entry}({declared}) -> Answer;\n}}\n\n\
         pub fn {entry}({taken}) -> Answer {{\n{open}    \
         // SAFETY: each pointer and its length are of one slice; what may be written is exclusive.\n    \
         unsafe {{ before_{entry}({given}) }}\n}}\n"
    )
}
