//! The numbers and texts of this crate are those of the C header, and the header's are those of the proved functions' source.

use hulmisker::*;

#[allow(dead_code)]
#[path = "../src/sizes.rs"]
mod sizes;

const HEADER: &str = include_str!("../../c/hulmisker.h");

/// What a constant is said to be: a number, or a product of numbers and other constants.
fn value(said: &str, of: impl Fn(&str) -> usize) -> usize {
    let factor = |word: &str| word.parse().unwrap_or_else(|_| of(word));
    said.split('*').map(|word| factor(word.trim())).product()
}

/// The number that the header gives a constant.
fn constant(name: &str) -> usize {
    let row = HEADER
        .lines()
        .find_map(|row| row.trim().strip_prefix(name)?.strip_prefix(" = "))
        .unwrap_or_else(|| panic!("the header has no {name}"));
    let end = row.find([',', '/']).unwrap_or(row.len());
    value(&row[..end], constant)
}

/// The text that the header has for a constant.
fn text(name: &str) -> &str {
    HEADER
        .lines()
        .find_map(|row| {
            row.trim()
                .strip_prefix("case ")?
                .strip_prefix(name)?
                .strip_prefix(": return \"")?
                .strip_suffix("\";")
        })
        .unwrap_or_else(|| panic!("the header has no text for {name}"))
}

/// `NameStart` as `NAME_START`.
fn in_capitals(variant: &str) -> String {
    let mut out = String::new();
    for (i, c) in variant.char_indices() {
        if i > 0 && c.is_ascii_uppercase() {
            out.push('_');
        }
        out.push(c.to_ascii_uppercase());
    }
    out
}

/// The faults of the proved source, each as `Name = number`, in the order of their numbers.
fn faults() -> Vec<&'static str> {
    let source = include_str!("../../../crates/refusal/src/fault.rt");
    let rows = between(source, "pub enum Fault {", "}").lines();
    rows.filter_map(|row| row.trim().strip_suffix(','))
        .collect()
}

#[test]
fn refusals() {
    for fault in Fault::ALL {
        let name = format!("HULMISKER_{}", in_capitals(&format!("{fault:?}")));
        assert_eq!(constant(&name), usize::from(fault.number()));
        assert_eq!(text(&name), fault.message());
    }
    assert_eq!(
        faults(),
        Fault::ALL.map(|fault| format!("{fault:?} = {}", fault.number()))
    );
    // The header has no other.
    let (_, rest) = HEADER.split_once("enum hulmisker_refusal {").unwrap();
    let (rows, _) = rest.split_once('}').unwrap();
    assert_eq!(rows.matches(" = ").count(), 1 + Fault::ALL.len());
}

#[test]
fn keys_and_operators() {
    for (code, key) in Key::ALL.into_iter().enumerate() {
        let name = format!("HULMISKER_KEY_{}", in_capitals(&format!("{key:?}")));
        assert_eq!(constant(&name), code);
        assert_eq!(text(&name), key.name());
    }
    for (code, operator) in Operator::ALL.into_iter().enumerate() {
        let name = format!(
            "HULMISKER_OPERATOR_{}",
            in_capitals(&format!("{operator:?}"))
        );
        assert_eq!(constant(&name), code);
        assert_eq!(text(&name), operator.name());
    }
}

#[test]
fn warnings() {
    let names = ["VERSION", "NAMES", "COMPATIBLE", "EXTRA", "LITERALS"];
    for (name, kind) in names.into_iter().zip(WarningKind::ALL) {
        let name = format!("HULMISKER_WARNING_{name}");
        assert_eq!(constant(&name), usize::from(kind.number()));
        assert_eq!(text(&name), kind.message());
    }
}

#[test]
fn limits() {
    for (name, limit, theirs) in [
        ("LINE", MAX_LINE, "MAX_LINE"),
        ("LIST", MAX_LIST, "MAX_LIST"),
        ("DEPTH", MAX_DEPTH, "MAX_DEPTH"),
        ("COMPARISONS", MAX_COMPARISONS, "MAX_COMPARISONS"),
        ("WARNINGS", MAX_WARNINGS, "MAX_COMPARISONS"),
        ("WORDS", MAX_WORDS, "MAX_WORDS"),
        ("VALUES", MAX_VALUES, "MAX_SLOTS"),
    ] {
        assert_eq!(constant(&format!("HULMISKER_MAX_{name}")), limit);
        assert_eq!(proved(theirs), limit);
    }
}

#[test]
fn sorts() {
    let names = [
        "VERSION",
        "VERSION_LIST",
        "STRING",
        "EXTRA_NORMAL",
        "EXTRA_ARBITRARY",
    ];
    for (code, name) in names.into_iter().enumerate() {
        assert_eq!(constant(&format!("HULMISKER_SORT_{name}")), code);
    }
}

/// The proved source that names sizes, places and limits, and the functions that lend by them.
const SOURCE: &str = concat!(
    include_str!("../../../crates/cursor/src/cursor.rt"),
    include_str!("../../../crates/program_check/src/rules.rt"),
    include_str!("../../../crates/spans/src/store.rt"),
    include_str!("../../../crates/marker_store/src/room.rt"),
    include_str!("../../../crates/figures/src/lib.rt"),
    include_str!("../../../crates/gateway_c/src/lib.rt"),
);

/// What stands in the proved source between two texts.
fn between<'text>(text: &'text str, from: &str, to: &str) -> &'text str {
    let (_, rest) = text
        .split_once(from)
        .unwrap_or_else(|| panic!("the source has no {from}"));
    rest.split_once(to).unwrap().0
}

/// The number that the proved source gives a constant.
fn proved(name: &str) -> usize {
    let name = name.rsplit("::").next().unwrap();
    value(
        between(SOURCE, &format!("pub const {name}: usize = "), ";"),
        proved,
    )
}

/// How many elements an array has that a function takes.
fn lent(function: &str, parameter: &str) -> usize {
    let rest = between(SOURCE, &format!("fn {function}("), "{");
    let array = between(rest, &format!("{parameter}: &mut "), ")");
    let array = array.split(',').next().unwrap();
    let elements = between(SOURCE, &format!("pub type {array} = ["), "]");
    value(elements.split_once("; ").unwrap().1, proved)
}

#[test]
fn sizes() {
    for (name, function, size) in [
        ("LINE", "hulmisker_line", sizes::LINE_FIGURES),
        ("EXTRAS", "hulmisker_extras", sizes::EXTRAS_FIGURES),
        ("MARKER", "hulmisker_marker", sizes::MARKER_FIGURES),
        ("VERSION", "hulmisker_version", sizes::VERSION_FIGURES),
        ("VERSION", "hulmisker_pattern", sizes::VERSION_FIGURES),
        ("VERSION", "hulmisker_specifier", sizes::VERSION_FIGURES),
        ("NORMALISE", "hulmisker_normalise", sizes::NORMALISE_FIGURES),
        ("CHECK", "hulmisker_check", sizes::CHECK_FIGURES),
        ("RUN", "hulmisker_run", sizes::RUN_FIGURES),
    ] {
        assert_eq!(constant(&format!("HULMISKER_{name}_FIGURES")), size);
        assert_eq!(lent(function, "figures"), size);
    }
    for (list, size) in [
        ("extras", sizes::LIST_SIZE),
        ("specifiers", sizes::LIST_SIZE),
        ("comparisons", sizes::COMPARISONS_SIZE),
        ("warnings", sizes::WARNINGS_SIZE),
        ("words", MAX_WORDS),
    ] {
        let name = format!("HULMISKER_{}_SIZE", list.to_ascii_uppercase());
        assert_eq!(constant(&name), size);
        assert_eq!(lent("hulmisker_line", list), size);
    }
    for (name, ours, theirs) in [
        ("SPAN", sizes::SPAN_SIZE, "SPAN_NUMBERS"),
        ("COMPARISON", sizes::COMPARISON_SIZE, "COMPARISON_NUMBERS"),
        ("WARNING", sizes::WARNING_SIZE, "WARNING_NUMBERS"),
    ] {
        assert_eq!(constant(&format!("HULMISKER_{name}_SIZE")), ours);
        assert_eq!(proved(theirs), ours);
    }
}

/// The header's places are those of the proved source.
#[test]
fn places() {
    for (name, theirs) in [
        ("COMPARISON_SORT", "SORT"),
        ("COMPARISON_KEY", "KEY"),
        ("COMPARISON_OPERATOR", "OPERATOR"),
        ("COMPARISON_START", "LITERAL_START"),
        ("COMPARISON_LEN", "LITERAL_LENGTH"),
        ("WARNING_KIND", "KIND"),
        ("WARNING_START", "SPAN_START"),
        ("WARNING_LEN", "SPAN_LENGTH"),
        ("REFUSED_START", "START"),
        ("REFUSED_LEN", "LENGTH"),
        ("EXTRAS_COUNT", "COUNT"),
        ("NORMALISE_LEN", "COUNT"),
        ("RUN_ANSWER", "COUNT"),
        ("MARKER_COMPARISONS", "MARKER_COMPARISONS"),
        ("MARKER_WARNINGS", "MARKER_WARNINGS"),
        ("MARKER_WORDS", "MARKER_WORDS"),
        ("LINE_NAME_START", "LINE_NAME_START"),
        ("LINE_NAME_LEN", "LINE_NAME_LENGTH"),
        ("LINE_HAS_URL", "LINE_HAS_URL"),
        ("LINE_URL_START", "LINE_URL_START"),
        ("LINE_URL_LEN", "LINE_URL_LENGTH"),
        ("LINE_EXTRAS", "LINE_EXTRAS"),
        ("LINE_SPECIFIERS", "LINE_SPECIFIERS"),
        ("LINE_COMPARISONS", "LINE_COMPARISONS"),
        ("LINE_WARNINGS", "LINE_WARNINGS"),
        ("LINE_WORDS", "LINE_WORDS"),
    ] {
        assert_eq!(
            constant(&format!("HULMISKER_{name}")),
            proved(theirs),
            "{name}"
        );
    }
}
