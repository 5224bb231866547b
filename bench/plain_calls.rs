// A plain Rust program that does the same work as `pack build` of one file of calls: it reads the file, scans its tokens, checks
// that they are calls, copies them into a body, and writes the bundle. The baseline of bench/calls.py; built with rustc -O.
use std::{env, fs, process};

#[derive(Clone, Copy, PartialEq)]
enum Place {
    Between,
    BehindName,
    BehindOpen,
    BehindArgument,
    BehindComma,
    BehindClose,
}

const WORDS: [&[u8]; 39] = [
    b"await", b"break", b"case", b"catch", b"class", b"const", b"continue", b"debugger", b"default", b"delete", b"do", b"else",
    b"enum", b"export", b"extends", b"false", b"finally", b"for", b"function", b"if", b"import", b"in", b"instanceof", b"let",
    b"new", b"null", b"return", b"super", b"switch", b"this", b"throw", b"true", b"try", b"typeof", b"var", b"void", b"while",
    b"with", b"yield",
];

fn is_name(word: &[u8]) -> bool {
    !(WORDS.binary_search(&word).is_ok() || word == b"require" || word == b"eval" || word.starts_with(b"__webpack_"))
}

fn is_start(c: u8) -> bool {
    c.is_ascii_alphabetic() || c == b'$' || c == b'_'
}

fn is_part(c: u8) -> bool {
    c.is_ascii_alphanumeric() || c == b'$' || c == b'_'
}

fn run(text: &[u8], at: usize, p: impl Fn(u8) -> bool) -> usize {
    at + text[at..].iter().position(|c| !p(*c)).unwrap_or(text.len() - at)
}

// The end of the token at a place, and whether it is a value.
fn token(text: &[u8], at: usize) -> Option<(usize, bool)> {
    let c = text[at];
    if is_start(c) {
        let end = run(text, at, is_part);
        return is_name(&text[at..end]).then_some((end, true));
    }
    if c.is_ascii_digit() {
        let end = run(text, at, |c| c.is_ascii_digit());
        if end - at > 1 && c == b'0' || end < text.len() && (is_part(text[end]) || text[end] == b'.') {
            return None;
        }
        return Some((end, true));
    }
    if c == b'"' || c == b'\'' {
        let end = run(text, at + 1, |d| (d == 9 || (32..=126).contains(&d)) && d != c && d != b'\\');
        return (end < text.len() && text[end] == c).then_some((end + 1, true));
    }
    matches!(c, b'(' | b')' | b',' | b';').then_some((at + 1, false))
}

fn body_of(text: &[u8]) -> Option<Vec<u8>> {
    let mut body = Vec::with_capacity(text.len());
    let mut place = Place::Between;
    let mut at = 0;
    loop {
        let start = run(text, at, |c| matches!(c, 9 | 10 | 13 | 32));
        if start == text.len() {
            return (place == Place::Between).then_some(body);
        }
        let (end, is_value) = token(text, start)?;
        let c = text[start];
        place = match place {
            Place::Between if is_value && is_start(c) => Place::BehindName,
            Place::BehindName if c == b'(' => Place::BehindOpen,
            Place::BehindOpen | Place::BehindComma if is_value => Place::BehindArgument,
            Place::BehindArgument if c == b',' => Place::BehindComma,
            Place::BehindOpen | Place::BehindArgument if c == b')' => Place::BehindClose,
            Place::BehindClose if c == b';' => Place::Between,
            _ => return None,
        };
        if !body.is_empty() && start > at {
            let newline = text[at..start].iter().any(|c| *c == b'\n' || *c == b'\r');
            body.push(if newline { b'\n' } else { b' ' });
        }
        body.extend_from_slice(&text[start..end]);
        at = end;
    }
}

fn main() {
    for absent in ["pack.json", "src/package.json", "package.json"] {
        if fs::metadata(absent).is_ok() {
            process::exit(1);
        }
    }
    let text = fs::read("src/index.js").expect("src/index.js");
    let Some(body) = body_of(&text) else { process::exit(1) };
    let mut file = vec![b'/'; env::args().nth(1).map_or(2764, |n| n.parse().expect("a size"))];
    file.extend_from_slice(b"__webpack_start__({ g: [[0]], c: [] }, [\n[0, 0, [], function (module, exports, __webpack_r) {\n/*m \"src/index.js\" ");
    file.extend_from_slice(body.len().to_string().as_bytes());
    file.extend_from_slice(b"*/\n");
    file.extend_from_slice(&body);
    file.extend_from_slice(b"\n}]\n]);\n");
    fs::create_dir_all("dist").expect("dist");
    fs::write("dist/main.js", &file).expect("dist/main.js");
    println!("file {} main.js\nbuilt 1 modules 1 groups 1 files", file.len());
}
