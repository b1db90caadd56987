//! The lines that are measured. A kind has a name, the entry that reads it and its lines.

/// Which entry is called.
#[derive(Clone, Copy)]
pub enum Entry {
    Line,
    Marker,
    Normalise,
}

pub struct Kind {
    pub name: String,
    pub entry: Entry,
    pub lines: Vec<String>,
}

impl Kind {
    pub fn bytes(&self) -> usize {
        self.lines.iter().map(String::len).sum()
    }
}

fn kind(name: &str, entry: Entry, lines: Vec<String>) -> Kind {
    Kind { name: name.to_string(), entry, lines }
}

fn one(name: &str, line: String) -> Kind {
    kind(name, Entry::Line, vec![line])
}

/// `n` copies of a text, with a joint between them.
fn joined(n: usize, text: &str, joint: &str) -> String {
    vec![text; n].join(joint)
}

fn name_of(line: &str) -> &str {
    let end = line.find(|c: char| !(c.is_ascii_alphanumeric() || "._-".contains(c)));
    &line[..end.unwrap_or(line.len())]
}

/// The night whole and in parts.
fn night(text: &str) -> Vec<Kind> {
    let lines: Vec<String> = text.lines().map(str::to_string).collect();
    let part = |want: fn(&str) -> bool| lines.iter().filter(|l| want(l)).cloned().collect();
    let names = lines.iter().map(|l| name_of(l).to_string()).collect();
    let markers =
        lines.iter().filter_map(|l| l.split_once(';')).map(|(_, m)| m.to_string()).collect();
    vec![
        kind("the night", Entry::Line, lines.clone()),
        kind("the night, lines with a marker", Entry::Line, part(|l| l.contains(';'))),
        kind("the night, lines without a marker", Entry::Line, part(|l| !l.contains(';'))),
        kind("the night, lines that are a name only", Entry::Line, part(|l| name_of(l) == l)),
        kind("the night, its markers alone", Entry::Marker, markers),
        kind("the night, its names normalised", Entry::Normalise, names),
    ]
}

/// Lines of everyday length, and the limits of each list.
pub fn short(text: &str) -> Vec<Kind> {
    let mut all = night(text);
    for n in [1, 4, 16, 64] {
        let marker = joined(n, "os_name == 'posix'", " and ");
        all.push(one(&format!("comparisons of strings: {n}"), format!("a; {marker}")));
    }
    for n in [1, 4, 16, 64] {
        let marker = joined(n, "python_version >= '3.8'", " or ");
        all.push(one(&format!("comparisons of versions: {n}"), format!("a; {marker}")));
    }
    let pip = "pip @ https://github.com/pypa/pip/archive/1.3.1.zip#sha1=da9234ee9982d4bbb3c72346a6de940a148ea686";
    all.push(one("a name", "typing-extensions".into()));
    all.push(one("32 extras", format!("a[{}]", joined(32, "test", ","))));
    all.push(one("32 specifiers", format!("a {}", joined(32, ">=1.2.3", ","))));
    all.push(one("a URL", pip.into()));
    all.push(one("a URL and a marker", format!("{pip} ; python_version >= '3.8'")));
    all.push(one("refused early", "-requests >= 2.8.1".into()));
    all.push(one(
        "refused late",
        "requests [security,tests] >= 2.8.1, == 2.8.* ; python_version < '2.7' and os_name == 'posix".into(),
    ));
    all
}

/// `before`, a filling, `behind`: `len` bytes in all. The filling repeats a unit and is cut at its end.
fn filled(len: usize, before: &str, unit: &str, behind: &str) -> String {
    let room = len - before.len() - behind.len();
    let filling: String = unit.chars().cycle().take(room).collect();
    format!("{before}{filling}{behind}")
}

/// Pieces of equal length with a comma between, the last one longer: `len` bytes in all.
fn pieces(len: usize, n: usize, before: &str, unit: &str, last: char) -> String {
    let each = (len + 1) / n - 1;
    let mut all: Vec<String> =
        (1..n).map(|_| filled(each, before, unit, &last.to_string())).collect();
    let used: usize = all.iter().map(|p| p.len() + 1).sum();
    all.push(filled(len - used, before, unit, &last.to_string()));
    all.join(",")
}

/// `a; ` and one unit of 64 bytes for each 64 bytes of `len`, a joint at the end of each but the last, which is filled instead.
fn units(len: usize, before: &str, behind: &str, joint: &str) -> String {
    let head = "a; ";
    let unit = filled(64, before, "x", &format!("{behind}{joint}"));
    let first = filled(64, &format!("{head}{before}"), "x", &format!("{behind}{joint}"));
    let last = filled(64, before, "x", behind);
    format!("{first}{}{last}", unit.repeat(len / 64 - 2))
}

/// A line of a given length.
type Grown = fn(usize) -> String;

/// Kinds that can have any length, for the growth of the cost.
pub const GROWN: &[(&str, Grown)] = &[
    ("name", |n| filled(n, "", "a", "")),
    ("name, then blanks", |n| filled(n, "a", " ", "")),
    ("32 extras", |n| format!("a[{}]", pieces(n - 3, 32, "", "b", 'b'))),
    ("32 specifiers", |n| format!("a{}", pieces(n - 1, 32, ">=", "1.", '1'))),
    ("32 specifiers in parentheses", |n| format!("a({})", pieces(n - 3, 32, ">=", "1.", '1'))),
    ("one specifier, many numbers", |n| filled(n, "a==", "1.", "1")),
    ("one specifier, one number with zeros before it", |n| filled(n, "a==", "0", "1")),
    ("one specifier, long local part", |n| filled(n, "a==1+", "b.", "1")),
    ("one specifier, blanks behind it", |n| filled(n, "a==1", " ", "")),
    ("URL", |n| filled(n, "a @ ", "x", "")),
    ("URL, every second byte a blank", |n| filled(n, "a @ ", "x ", "x")),
    ("URL, one run of blanks", |n| filled(n, "a @ x", " ", "x")),
    ("URL, a `;` in every second place", |n| filled(n, "a @ ", "x;", "x")),
    ("marker, a comparison of strings in 64 bytes", |n| units(n, "os_name=='", "'", " and ")),
    ("marker, a comparison of versions in 64 bytes", |n| {
        units(n, "python_version=='", "'", " or ").replace('x', "1")
    }),
    ("marker, an ignored comparison in 64 bytes", |n| units(n, "'a'=='", "'", " and ")),
    ("marker, 16 nested groups in 64 bytes", |n| {
        units(n, &format!("{}os_name=='", "(".repeat(16)), &format!("'{}", ")".repeat(16)), " and ")
    }),
    ("marker, 16 nested groups around a long literal", |n| {
        filled(n, &format!("a; {}os_name=='", "(".repeat(16)), "x", &format!("'{}", ")".repeat(16)))
    }),
    ("marker, 16 nested groups, blanks before each end", |n| {
        let groups = format!("a; {}os_name=='a'", "(".repeat(16));
        let room = n - groups.len();
        let end = filled(room / 16, "", " ", ")");
        let last = filled(room - 15 * (room / 16), "", " ", ")");
        format!("{groups}{}{last}", end.repeat(15))
    }),
    ("marker, one long literal", |n| filled(n, "a; os_name=='", "x", "'")),
    ("marker, one long version", |n| filled(n, "a; python_version=='", "1.", "1'")),
    ("marker, a long list of versions", |n| filled(n, "a; python_version in '", "1 ", "1'")),
    ("marker, one long extra", |n| filled(n, "a; extra=='", "b-", "b'")),
    ("refused at the first byte", |n| filled(n, "$", "a", "")),
    ("refused at the last byte, name", |n| filled(n, "", "a", "$")),
    ("refused at the last byte, marker", |n| {
        let good = units(n, "os_name=='", "'", " and ");
        format!("{}x", &good[..n - 1])
    }),
    ("refused behind 16 nested groups", |n| {
        filled(n, &format!("a; {}os_name=='a'{}", "(".repeat(16), ")".repeat(16)), "x", "")
    }),
];

/// The lengths that the growth is taken from; the last is document 01's limit.
pub const LENGTHS: [usize; 3] = [1024, 2048, 4096];

pub fn grown() -> Vec<Kind> {
    let mut all = Vec::new();
    for (name, line) in GROWN {
        for len in LENGTHS {
            let text = line(len);
            assert_eq!(text.len(), len, "{name}");
            all.push(one(name, text));
        }
    }
    all
}
