//! `oracle serve`: answers each line of the shape `ENTRY HEX` (`-` for no bytes) with one line of
//! JSON that says what the given source of pep508_rs 0.9.2 does. `met` says what was met on the
//! way, also before a refusal: the numbers of extras, of valid specifiers, of kept comparisons and
//! of warnings, and which of document 01's limits was passed first, 26 (65th kept comparison) or
//! 27 (65th warning), 0 for none. See README.md for what rests on stand-ins.
use std::cell::Cell;
use std::fmt::Write as _;
use std::io::{BufRead, BufReader, BufWriter, Write};
use std::panic::{catch_unwind, AssertUnwindSafe};
use std::str::FromStr;

use pep440_rs::{Version, VersionPattern, VersionSpecifier};
use pep508_rs::{
    ExtraName, ExtraOperator, Extras, MarkerExpression, MarkerTree, MarkerValueExtra, MarkerWarningKind,
    PackageName, Pep508Error, Requirement, VerbatimUrl, VersionOrUrl,
};

/// An answer as JSON text.
type Answer = String;

fn hex(text: &str) -> String {
    let mut out = String::from("\"");
    for byte in text.bytes() {
        write!(out, "{byte:02x}").unwrap();
    }
    out.push('"');
    out
}

fn quoted(text: &str) -> String {
    let mut out = String::from("\"");
    for c in text.chars() {
        match c {
            '"' | '\\' => {
                out.push('\\');
                out.push(c);
            }
            '\0'..='\x1f' | '\x7f'.. => write!(out, "\\u{:04x}", (c as u32).min(0xffff)).unwrap(),
            _ => out.push(c),
        }
    }
    out.push('"');
    out
}

fn list(items: impl IntoIterator<Item = String>) -> String {
    format!("[{}]", items.into_iter().collect::<Vec<_>>().join(","))
}

fn refusal(err: &Pep508Error<VerbatimUrl>) -> Answer {
    format!("{{\"err\":[{},{},{}]}}", quoted(&err.message.to_string()), err.start, err.len)
}

/// For errors that carry no span.
fn refusal_without_span(message: &str) -> Answer {
    format!("{{\"err\":[{},null,null]}}", quoted(message))
}

thread_local! {
    static WARNINGS: Cell<usize> = const { Cell::new(0) };
    static LIMIT: Cell<u8> = const { Cell::new(0) };
}

/// Which limit is passed by now, if none was before. A comparison warns before it is kept, so asking
/// at each warning and at the end gives the first.
fn limit() -> u8 {
    if LIMIT.with(Cell::get) == 0 {
        if MarkerTree::numbers() > 64 {
            LIMIT.with(|l| l.set(26));
        } else if WARNINGS.with(Cell::get) > 64 {
            LIMIT.with(|l| l.set(27));
        }
    }
    LIMIT.with(Cell::get)
}

fn kind(kind: MarkerWarningKind) -> u8 {
    limit();
    WARNINGS.with(|w| w.set(w.get() + 1));
    limit();
    match kind {
        MarkerWarningKind::Pep440Error => 1,
        MarkerWarningKind::MarkerMarkerComparison => 2,
        MarkerWarningKind::LexicographicComparison => 3,
        MarkerWarningKind::ExtraInvalidComparison => 4,
        MarkerWarningKind::StringStringComparison => 5,
    }
}

fn comparison(expression: &MarkerExpression) -> String {
    let (sort, key, operator, literal) = match expression {
        MarkerExpression::Version { key, specifier } => {
            ("version", key.as_str(), specifier.operator().as_str(), specifier.text().to_string())
        }
        // The source keeps no literal here, only the versions; they are printed with one blank
        // between.
        MarkerExpression::VersionIn { key, versions, negated } => (
            "version_list",
            key.as_str(),
            if *negated { "not in" } else { "in" },
            versions.iter().map(Version::text).collect::<Vec<_>>().join(" "),
        ),
        MarkerExpression::String { key, operator, value } => {
            ("string", key.as_str(), operator.as_str(), value.clone())
        }
        MarkerExpression::Extra { operator, name } => {
            let (sort, literal) = match name {
                MarkerValueExtra::Extra(name) => ("extra_normal", name.given().to_string()),
                MarkerValueExtra::Arbitrary(text) => ("extra_arbitrary", text.clone()),
            };
            let operator = match operator {
                ExtraOperator::Equal => "==",
                ExtraOperator::NotEqual => "!=",
            };
            (sort, "extra", operator, literal)
        }
    };
    format!("[\"{sort}\",\"{key}\",\"{operator}\",{}]", hex(&literal))
}

/// A name: the text as given and the normal form.
fn name(given: &str, normal: &str) -> String {
    format!("[{},{}]", hex(given), hex(normal))
}

/// The postfix words, and the comparisons by number.
fn walk(tree: &MarkerTree, words: &mut Vec<usize>, comparisons: &mut Vec<(usize, String)>) {
    match tree {
        MarkerTree::Yes => words.push(66),
        MarkerTree::Leaf(number, expression) => {
            // Words 64 to 66 are taken: a program with more than 64 comparisons is told by its
            // number of comparisons.
            words.push(*number);
            comparisons.push((*number, comparison(expression)));
        }
        MarkerTree::And(left, right) | MarkerTree::Or(left, right) => {
            walk(left, words, comparisons);
            walk(right, words, comparisons);
            words.push(if matches!(tree, MarkerTree::And(..)) { 64 } else { 65 });
        }
    }
}

/// Comparisons and program.
fn program(tree: &MarkerTree) -> (String, String) {
    let mut words = Vec::new();
    let mut comparisons = Vec::new();
    walk(tree, &mut words, &mut comparisons);
    comparisons.sort();
    (
        list(comparisons.into_iter().map(|(_, text)| text)),
        list(words.iter().map(usize::to_string)),
    )
}

fn line(text: &str) -> Answer {
    let mut warnings = Vec::new();
    let mut reporter = |k: MarkerWarningKind, _: String| warnings.push(kind(k));
    let read = Requirement::<VerbatimUrl>::parse_reporter(text, "", &mut reporter);
    let requirement = match read {
        Ok(requirement) => requirement,
        Err(err) => return refusal(&err),
    };
    let (comparisons, program) = program(&requirement.marker);
    let (specifiers, url) = match &requirement.version_or_url {
        None => ("[]".to_string(), "null".to_string()),
        Some(VersionOrUrl::VersionSpecifier(specifiers)) => {
            (list(specifiers.iter().map(|s| hex(s.text()))), "null".to_string())
        }
        Some(VersionOrUrl::Url(url)) => ("[]".to_string(), hex(&url.to_string())),
    };
    format!(
        "{{\"ok\":{{\"comparisons\":{comparisons},\"extras\":{},\"name\":{},\"program\":{program},\
         \"specifiers\":{specifiers},\"url\":{url},\"warnings\":{}}}}}",
        list(requirement.extras.iter().map(|e| name(e.given(), e.as_str()))),
        name(requirement.name.given(), requirement.name.as_str()),
        list(warnings.iter().map(u8::to_string)),
    )
}

fn marker(text: &str) -> Answer {
    let mut warnings = Vec::new();
    let mut reporter = |k: MarkerWarningKind, _: String| warnings.push(kind(k));
    match MarkerTree::parse_reporter::<VerbatimUrl>(text, &mut reporter) {
        Ok(tree) => {
            let (comparisons, program) = program(&tree);
            format!(
                "{{\"ok\":{{\"comparisons\":{comparisons},\"program\":{program},\"warnings\":{}}}}}",
                list(warnings.iter().map(u8::to_string)),
            )
        }
        Err(err) => refusal(&err),
    }
}

fn extras(text: &str) -> Answer {
    match Extras::parse::<VerbatimUrl>(text) {
        Ok(extras) => {
            let names = list(extras.names().iter().map(|e| name(e.given(), e.as_str())));
            format!("{{\"ok\":{{\"extras\":{names}}}}}")
        }
        Err(err) => refusal(&err),
    }
}

/// By both forms of the given normaliser.
fn normalise(text: &str) -> Answer {
    let owned = PackageName::new(text.to_string());
    let lent = PackageName::from_str(text);
    assert_eq!(owned, lent, "the two forms of the normaliser differ");
    match owned {
        Ok(name) => format!("{{\"ok\":{{\"name\":{}}}}}", hex(name.as_str())),
        Err(err) => refusal_without_span(&err.to_string()),
    }
}

/// Versions, patterns and specifiers alone: stand-in only.
fn text_answer<T: FromStr<Err = pep440_rs::VersionError>>(text: &str) -> Answer {
    match T::from_str(text) {
        Ok(_) => "{\"ok\":{}}".to_string(),
        Err(err) => refusal_without_span(&err.to_string()),
    }
}

/// Takes exactly the shape `ENTRY HEX`.
fn question(input: &str) -> Option<(&str, Vec<u8>)> {
    let (entry, digits) = input.split_once(' ')?;
    if digits == "-" {
        return Some((entry, Vec::new()));
    }
    if digits.len() % 2 != 0 {
        return None;
    }
    let bytes = (0..digits.len() / 2)
        .map(|i| u8::from_str_radix(digits.get(2 * i..2 * i + 2)?, 16).ok())
        .collect::<Option<Vec<u8>>>()?;
    Some((entry, bytes))
}

fn answer(input: &str) -> Answer {
    let Some((entry, bytes)) = question(input) else {
        return "{\"unknown\":true}".to_string();
    };
    // The source reads text; document 01 reads ASCII, but for the normaliser.
    let text = match std::str::from_utf8(&bytes) {
        Ok(text) if text.is_ascii() || entry == "normalise" => text,
        _ => return "{\"skip\":true}".to_string(),
    };
    let ask: fn(&str) -> Answer = match entry {
        "line" => line,
        "extras" => extras,
        "marker" => marker,
        "normalise" => normalise,
        "version" => text_answer::<Version>,
        "pattern" => text_answer::<VersionPattern>,
        "specifier" => text_answer::<VersionSpecifier>,
        _ => return "{\"unknown\":true}".to_string(),
    };
    MarkerTree::restart_numbers();
    ExtraName::restart_count();
    VersionSpecifier::restart_count();
    WARNINGS.with(|w| w.set(0));
    LIMIT.with(|l| l.set(0));
    let answer = match catch_unwind(AssertUnwindSafe(|| ask(text))) {
        Ok(answer) => answer,
        Err(payload) => {
            let message = payload
                .downcast_ref::<String>()
                .map(String::as_str)
                .or_else(|| payload.downcast_ref::<&str>().copied())
                .unwrap_or("");
            format!("{{\"panic\":{}}}", quoted(message))
        }
    };
    let met = format!(
        "\"met\":[{},{},{},{},{}]",
        ExtraName::count(),
        VersionSpecifier::count(),
        MarkerTree::numbers(),
        WARNINGS.with(Cell::get),
        limit(),
    );
    format!("{{{met},{}", answer.strip_prefix('{').unwrap())
}

/// Answers go out as soon as no further question waits.
fn serve() {
    let mut questions = BufReader::with_capacity(1 << 16, std::io::stdin());
    let mut answers = BufWriter::with_capacity(1 << 16, std::io::stdout());
    let mut input = String::new();
    loop {
        input.clear();
        match questions.read_line(&mut input) {
            Ok(0) | Err(_) => break,
            Ok(_) => {}
        }
        if writeln!(answers, "{}", answer(input.trim_end())).is_err() {
            break;
        }
        if questions.buffer().is_empty() && answers.flush().is_err() {
            break;
        }
    }
}

fn main() {
    let arguments: Vec<String> = std::env::args().skip(1).collect();
    if arguments != ["serve"] {
        eprintln!("usage: oracle serve");
        std::process::exit(2);
    }
    std::panic::set_hook(Box::new(|_| {}));
    // Thousands of open parentheses are thousands of calls deep.
    let serve = std::thread::Builder::new().stack_size(1 << 28).spawn(serve).unwrap();
    serve.join().unwrap();
}
