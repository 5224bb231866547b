// A plain Rust program that does the work of tokens_run: it reads a text from the standard input and counts its tokens, by the
// same rules. The baseline of bench/tokens.py; built with rustc -O.
use std::io::Read;

#[derive(Clone, Copy, PartialEq)]
enum Goal {
    Operand,
    Operator,
    Template,
}

#[derive(Clone, Copy, PartialEq)]
enum Kind {
    Name,
    Number,
    String,
    Template,
    Regex,
    Mark,
    End,
}

struct Token {
    kind: Kind,
    start: u32,
    end: u32,
    newline: bool,
}

// What the bytes of ASCII are. A byte of no class, like those of longer characters, is looked at by itself.
const START: u8 = 1;
const PART: u8 = 2;
const WHITE: u8 = 4;
// Stands for itself in a comment, and in a string or a template: no line's end, no quote, no backslash, no `$`.
const COMMENT: u8 = 8;
const QUOTED: u8 = 16;

const CLASSES: [u8; 256] = {
    let mut classes = [0; 256];
    let mut byte: usize = 0;
    while byte < 128 {
        let c = byte as u8;
        if c.is_ascii_alphabetic() || c == b'$' || c == b'_' {
            classes[byte] |= START | PART;
        }
        if c.is_ascii_digit() {
            classes[byte] |= PART;
        }
        if matches!(c, b'\t' | 0x0b | 0x0c | b' ') {
            classes[byte] |= WHITE;
        }
        if c != b'\n' && c != b'\r' && c != b'*' {
            classes[byte] |= COMMENT;
        }
        if !matches!(c, b'\n' | b'\r' | b'\'' | b'"' | b'`' | b'\\' | b'$') {
            classes[byte] |= QUOTED;
        }
        byte += 1;
    }
    classes
};

// Where bytes of the class that begin at a place end.
fn run(text: &[u8], at: usize, class: u8) -> usize {
    let mut i = at;
    while i < text.len() && CLASSES[text[i] as usize] & class != 0 {
        i += 1;
    }
    i
}

// The character at a place, if its bytes are UTF-8.
fn character(text: &[u8], at: usize) -> Option<(char, usize)> {
    let a = *text.get(at)?;
    if a < 0x80 {
        return Some((a as char, 1));
    }
    let size = match a {
        0xC2..=0xDF => 2,
        0xE0..=0xEF => 3,
        0xF0..=0xF4 => 4,
        _ => return None,
    };
    let found = std::str::from_utf8(text.get(at..at + size)?).ok()?.chars().next()?;
    Some((found, size))
}

fn is_terminator(c: char) -> bool {
    matches!(c, '\n' | '\r' | '\u{2028}' | '\u{2029}')
}

fn is_white(c: char) -> bool {
    matches!(c, '\t' | '\u{b}' | '\u{c}' | ' ' | '\u{a0}' | '\u{1680}' | '\u{2000}'..='\u{200a}' | '\u{202f}' | '\u{205f}' | '\u{3000}' | '\u{feff}')
}

fn is_start(c: char) -> bool {
    c == '$' || c == '_' || c.is_alphabetic()
}

fn is_part(c: char) -> bool {
    c == '$' || c == '_' || c == '\u{200c}' || c == '\u{200d}' || c.is_alphanumeric()
}

// The end of the escape `\u` at a place, and its code.
fn unicode_escape(text: &[u8], at: usize) -> Option<(u32, usize)> {
    if text.get(at + 1) != Some(&b'u') {
        return None;
    }
    if text.get(at + 2) == Some(&b'{') {
        let mut code: u32 = 0;
        let mut i = at + 3;
        while let Some(d) = text.get(i).and_then(|c| (*c as char).to_digit(16)) {
            code = (code * 16 + d).min(0x110000);
            i += 1;
        }
        return (i > at + 3 && text.get(i) == Some(&b'}') && code < 0x110000).then_some((code, i + 1));
    }
    let mut code = 0;
    for i in at + 2..at + 6 {
        code = code * 16 + (*text.get(i)? as char).to_digit(16)?;
    }
    Some((code, at + 6))
}

fn name_unit(text: &[u8], at: usize, p: impl Fn(char) -> bool) -> Option<usize> {
    if text.get(at) == Some(&b'\\') {
        let (code, end) = unicode_escape(text, at)?;
        return char::from_u32(code).filter(|c| p(*c)).map(|_| end);
    }
    character(text, at).filter(|(c, _)| p(*c)).map(|(_, size)| at + size)
}

fn name(text: &[u8], at: usize) -> Option<usize> {
    let first = *text.get(at)?;
    let mut end = if CLASSES[first as usize] & START != 0 {
        at + 1
    } else if first < 0x80 && first != b'\\' {
        return None;
    } else {
        name_unit(text, at, is_start)?
    };
    loop {
        end = run(text, end, PART);
        match text.get(end) {
            Some(c) if *c >= 0x80 || *c == b'\\' => match name_unit(text, end, is_part) {
                Some(next) => end = next,
                None => return Some(end),
            },
            _ => return Some(end),
        }
    }
}

fn is_digit(text: &[u8], at: usize, radix: u32) -> bool {
    text.get(at).is_some_and(|c| (*c as char).is_digit(radix))
}

fn digits(text: &[u8], at: usize, radix: u32) -> usize {
    let mut i = at;
    if !is_digit(text, i, radix) {
        return i;
    }
    loop {
        if is_digit(text, i, radix) {
            i += 1;
        } else if text.get(i) == Some(&b'_') && is_digit(text, i + 1, radix) {
            i += 2;
        } else {
            return i;
        }
    }
}

fn exponent(text: &[u8], at: usize) -> usize {
    if !matches!(text.get(at), Some(b'e' | b'E')) {
        return at;
    }
    let first = if matches!(text.get(at + 1), Some(b'+' | b'-')) { at + 2 } else { at + 1 };
    let end = digits(text, first, 10);
    if end > first { end } else { at }
}

fn numeric(text: &[u8], at: usize) -> Option<usize> {
    if text[at] == b'0' {
        let radix = match text.get(at + 1) {
            Some(b'x' | b'X') => 16,
            Some(b'o' | b'O') => 8,
            Some(b'b' | b'B') => 2,
            _ => 0,
        };
        if radix > 0 {
            let end = digits(text, at + 2, radix);
            return (end > at + 2).then(|| if text.get(end) == Some(&b'n') { end + 1 } else { end });
        }
    }
    let whole = if text[at] == b'0' { at + 1 } else { digits(text, at, 10) };
    if whole > at && text.get(whole) == Some(&b'n') {
        return Some(whole + 1);
    }
    if text.get(whole) == Some(&b'.') {
        let end = digits(text, whole + 1, 10);
        return (end > at + 1).then(|| exponent(text, end));
    }
    Some(exponent(text, whole))
}

fn number(text: &[u8], at: usize) -> Option<usize> {
    let end = numeric(text, at)?;
    (!is_digit(text, end, 10) && name_unit(text, end, is_start).is_none()).then_some(end)
}

fn escape(text: &[u8], at: usize) -> Option<usize> {
    match *text.get(at + 1)? {
        b'\r' if text.get(at + 2) == Some(&b'\n') => Some(at + 3),
        b'x' => (is_digit(text, at + 2, 16) && is_digit(text, at + 3, 16)).then_some(at + 4),
        b'u' => unicode_escape(text, at).map(|(_, end)| end),
        b'0' => (!is_digit(text, at + 2, 10)).then_some(at + 2),
        b'1'..=b'9' => None,
        _ => character(text, at + 1).map(|(_, size)| at + 1 + size),
    }
}

fn string(text: &[u8], at: usize) -> Option<usize> {
    let quote = text[at];
    let mut i = at + 1;
    loop {
        i = run(text, i, QUOTED);
        match *text.get(i)? {
            c if c == quote => return Some(i + 1),
            b'\n' | b'\r' => return None,
            b'\\' => i = escape(text, i)?,
            _ => i += character(text, i)?.1,
        }
    }
}

fn template(text: &[u8], at: usize) -> Option<usize> {
    let mut i = at + 1;
    loop {
        i = run(text, i, QUOTED);
        match *text.get(i)? {
            b'`' => return Some(i + 1),
            b'$' if text.get(i + 1) == Some(&b'{') => return Some(i + 2),
            b'\\' => i += 1 + character(text, i + 1)?.1,
            _ => i += character(text, i)?.1,
        }
    }
}

fn of_line(text: &[u8], at: usize) -> Option<usize> {
    character(text, at).filter(|(c, _)| !is_terminator(*c)).map(|(_, size)| at + size)
}

fn regex(text: &[u8], at: usize) -> Option<usize> {
    let mut i = at + 1;
    let mut bracketed = false;
    loop {
        match *text.get(i)? {
            b'/' if !bracketed => break,
            b'[' => {
                bracketed = true;
                i += 1;
            }
            b']' => {
                bracketed = false;
                i += 1;
            }
            b'\\' => i = of_line(text, i + 1)?,
            _ => i = of_line(text, i)?,
        }
    }
    i += 1;
    while let Some((_, size)) = character(text, i).filter(|(c, _)| is_part(*c)) {
        i += size;
    }
    Some(i)
}

fn mark(text: &[u8], at: usize) -> Option<usize> {
    let byte = |i: usize| text.get(at + i).copied().unwrap_or(0);
    let (a, b, c, d) = (byte(0), byte(1), byte(2), byte(3));
    let size = match (a, b, c, d) {
        (b'>', b'>', b'>', b'=') => 4,
        (b'.', b'.', b'.', _) | (b'=' | b'!', b'=', b'=', _) | (b'>', b'>', b'>', _) => 3,
        (b'*', b'*', b'=', _) | (b'<', b'<', b'=', _) | (b'>', b'>', b'=', _) => 3,
        (b'&', b'&', b'=', _) | (b'|', b'|', b'=', _) | (b'?', b'?', b'=', _) => 3,
        (b'=', b'>', _, _) => 2,
        (b'?', b'.', _, _) if !c.is_ascii_digit() => 2,
        (b'<' | b'>' | b'=' | b'!' | b'+' | b'-' | b'*' | b'/' | b'%' | b'&' | b'|' | b'^', b'=', _, _) => 2,
        (b'+' | b'-' | b'<' | b'>' | b'*' | b'&' | b'|' | b'?', _, _, _) if a == b => 2,
        (b'{' | b'}' | b'(' | b')' | b'[' | b']' | b'.' | b';' | b',' | b'<' | b'>' | b'+' | b'-', ..) => 1,
        (b'*' | b'/' | b'%' | b'&' | b'|' | b'^' | b'!' | b'~' | b'?' | b':' | b'=', ..) => 1,
        _ => return None,
    };
    Some(at + size)
}

// The end of the gap at a place, and whether a line terminator was passed.
fn gap(text: &[u8], at: usize) -> (usize, bool) {
    let mut i = at;
    let mut newline = false;
    loop {
        i = run(text, i, WHITE);
        let Some(c) = text.get(i) else {
            return (i, newline);
        };
        if *c == b'\n' || *c == b'\r' {
            newline = true;
            i += 1;
            continue;
        }
        if *c >= 0x80 {
            match character(text, i) {
                Some((c, size)) if is_terminator(c) || is_white(c) => {
                    newline |= is_terminator(c);
                    i += size;
                    continue;
                }
                _ => return (i, newline),
            }
        }
        if *c != b'/' {
            return (i, newline);
        }
        if text[i..].starts_with(b"//") {
            i += 2;
            loop {
                i = run(text, i, COMMENT);
                match of_line(text, i) {
                    Some(next) => i = next,
                    None => break,
                }
            }
        } else if text[i..].starts_with(b"/*") {
            let mut j = i + 2;
            let mut passed = false;
            loop {
                j = run(text, j, COMMENT);
                if text[j..].starts_with(b"*/") {
                    break;
                }
                let Some((c, size)) = character(text, j) else {
                    return (i, newline);
                };
                passed |= is_terminator(c);
                j += size;
            }
            newline |= passed;
            i = j + 2;
        } else {
            return (i, newline);
        }
    }
}

fn next_token(text: &[u8], at: u32, goal: Goal) -> Option<Token> {
    let mut from = at as usize;
    if from == 0 {
        let mark = if text.starts_with(b"\xEF\xBB\xBF") { 3 } else { 0 };
        if text[mark..].starts_with(b"#!") {
            from = mark + 2;
            while let Some(next) = of_line(text, from) {
                from = next;
            }
        }
    }
    let (start, newline) = gap(text, from);
    let (kind, end) = match text.get(start) {
        None => (Kind::End, start),
        Some(b'/') if text.get(start + 1) == Some(&b'*') => return None,
        Some(b'/') if goal == Goal::Operand => (Kind::Regex, regex(text, start)?),
        Some(b'}') if goal == Goal::Template => (Kind::Template, template(text, start)?),
        Some(b'"' | b'\'') => (Kind::String, string(text, start)?),
        Some(b'`') => (Kind::Template, template(text, start)?),
        Some(b'#') => (Kind::Name, name(text, start + 1)?),
        Some(c) if c.is_ascii_digit() || *c == b'.' && is_digit(text, start + 1, 10) => (Kind::Number, number(text, start)?),
        _ => match name(text, start) {
            Some(end) => (Kind::Name, end),
            None => (Kind::Mark, mark(text, start)?),
        },
    };
    Some(Token { kind, start: start as u32, end: end as u32, newline })
}

fn main() {
    let mut text = Vec::new();
    std::io::stdin().read_to_end(&mut text).expect("the text");
    let (mut counts, mut newlines, mut at) = ([0u64; 6], 0u64, 0);
    let (mut behind_operand, mut in_template) = (false, false);
    loop {
        let goal = match (behind_operand, in_template) {
            (false, _) => Goal::Operand,
            (true, true) => Goal::Template,
            (true, false) => Goal::Operator,
        };
        let Some(token) = next_token(&text, at, goal) else {
            println!("fault behind {at}");
            return;
        };
        if token.kind == Kind::End {
            break;
        }
        assert!(token.start < token.end);
        newlines += token.newline as u64;
        counts[token.kind as usize] += 1;
        let last = text[token.end as usize - 1];
        behind_operand = true;
        if token.kind == Kind::Template {
            in_template = last == b'{';
            behind_operand = last != b'{';
        } else if token.kind == Kind::Mark {
            behind_operand = matches!(last, b')' | b']' | b'}');
        }
        at = token.end;
    }
    let [names, numbers, strings, templates, regexes, marks] = counts;
    println!("{names} {numbers} {strings} {templates} {regexes} {marks} {newlines}");
}
