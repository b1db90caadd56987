//! The functions of this crate on fixed cases: document 01's own, each refusal, and both sides of each limit.

use hulmisker::*;

/// A marker's answer in one row, as document 01 writes it.
fn marker(text: &str) -> String {
    let line = text.as_bytes();
    match read_marker(line) {
        Ok(marker) => told(&marker, line),
        Err(refusal) => refused(refusal),
    }
}

fn told(marker: &Marker, line: &[u8]) -> String {
    let mut out = String::new();
    for c in marker.comparisons() {
        let literal = String::from_utf8_lossy(c.literal.of(line));
        out += &format!("{:?} {} {} '{literal}', ", c.sort, c.key, c.operator);
    }
    for w in marker.warnings() {
        out += &format!(
            "kind {} at {}, {}, ",
            w.kind.number(),
            w.span.start,
            w.span.len
        );
    }
    for word in marker.program().words() {
        out += &format!("{word} ");
    }
    out.trim_end().to_owned()
}

fn refused(refusal: Refusal) -> String {
    let Span { start, len } = refusal.span;
    format!("{} at {start}, {len}", refusal.fault.number())
}

fn line(text: impl AsRef<[u8]>) -> String {
    let line = text.as_ref();
    let of = |span: Span| String::from_utf8_lossy(span.of(line)).into_owned();
    match read_line(line) {
        Err(refusal) => refused(refusal),
        Ok(found) => {
            let mut out = of(found.name());
            for &extra in found.extras() {
                out += &format!(" [{}]", of(extra));
            }
            for &specifier in found.specifiers() {
                out += &format!(" ({})", of(specifier));
            }
            if let Some(url) = found.url() {
                out += &format!(" @ {}", of(url));
            }
            format!("{out} ; {}", told(found.marker(), line))
        }
    }
}

fn extras(text: &str) -> String {
    match read_extras(text.as_bytes()) {
        Ok(found) => found
            .iter()
            .map(|span| format!("[{}]", String::from_utf8_lossy(span.of(text.as_bytes()))))
            .collect(),
        Err(refusal) => refused(refusal),
    }
}

fn normal(name: &str, room: usize) -> String {
    let mut out = vec![0xA5; room];
    let answer = match normalise(name.as_bytes(), &mut out) {
        Ok(normal) => String::from_utf8_lossy(normal).into_owned(),
        Err(refusal) => {
            let answer = refused(refusal);
            assert!(
                out.iter().all(|&b| b == 0xA5),
                "a refusal leaves the output"
            );
            return answer;
        }
    };
    assert!(
        out[answer.len()..].iter().all(|&b| b == 0xA5),
        "the rest stays"
    );
    answer
}

fn verdict(answer: Result<(), Refusal>) -> String {
    answer.map_or_else(refused, |()| "good".to_owned())
}

#[test]
fn the_twelve_cases_of_document_01() {
    assert_eq!(
        marker("os_name=='a'and os_name=='b'"),
        "String os_name == 'a', String os_name == 'b', 0 1 64"
    );
    assert_eq!(marker("os_name=='a' and(os_name=='b')"), "24 at 13, 16");
    assert_eq!(
        marker("os_name=='a' or os_name=='b' and os_name=='c'"),
        "String os_name == 'a', String os_name == 'b', String os_name == 'c', 0 1 2 64 65"
    );
    assert_eq!(
        marker("'a'=='b' or os_name=='c'"),
        "String os_name == 'c', kind 5 at 0, 8, 0"
    );
    assert_eq!(marker("('a'=='b')"), "kind 5 at 1, 8, 66");
    assert_eq!(
        marker("python_version in 'abc'"),
        "kind 1 at 0, 23, kind 1 at 0, 23, 66"
    );
    assert_eq!(marker("os_name ~= 'a'"), "kind 3 at 0, 14, 66");
    assert_eq!(marker("'a' ~= os_name"), "String os_name ~= 'a', 0");
    assert_eq!(marker("os_name not in'x'"), "String os_name not in 'x', 0");
    assert_eq!(marker("os_name not'x'"), "21 at 11, 1");
    assert_eq!(marker(""), "18 at 0, 1");
    assert_eq!(marker("os_name=='a"), "22 at 9, 1");
    assert_eq!(extras("[,"), "7 at 1, 1");
    assert_eq!(extras("[a,]"), "8 at 3, 1");
    assert_eq!(normal("Foo._-Bar", 9), "foo-bar");
    assert_eq!(line("foo-;"), "5 at 3, 1");
}

#[test]
fn lines() {
    assert_eq!(
        line(r#"requests [security,tests] >= 2.8.1, == 2.8.* ; python_version > "3.8""#),
        "requests [security] [tests] (>= 2.8.1) ( == 2.8.* ) ; Version python_version > '3.8', 0"
    );
    assert_eq!(line("A"), "A ; 66");
    assert_eq!(line("a @ ;"), "a @ ; ; 66");
    assert_eq!(
        line("a;'x' in os_name or 'y' not in sys_platform"),
        "a ; String os_name contains 'x', String sys_platform not contains 'y', 0 1 65"
    );
    assert_eq!(
        line("a;extra=='-' and extra=='B'"),
        "a ; Extra(Arbitrary) extra == '-', Extra(Normal) extra == 'B', kind 4 at 2, 10, 0 1 64"
    );
    assert_eq!(
        line("a;python_version not in '1 2'"),
        "a ; VersionList python_version not in '1 2', 0"
    );
    assert_eq!(
        line("a;os_name==sys_platform and extra<'b'"),
        "a ; kind 2 at 2, 21, kind 4 at 28, 9, 66"
    );
}

#[test]
fn markers() {
    assert_eq!(
        marker("'1'>=python_full_version or 'x' in os_name or 'y' not in sys_platform"),
        "Version python_full_version <= '1', String os_name contains 'x', \
         String sys_platform not contains 'y', 0 1 65 2 65"
    );
    let many = read_marker(&joined("os_name=='a'", 64)[2..]).unwrap();
    let literals: Vec<Span> = many.comparisons().map(|c| c.literal).collect();
    let wanted: Vec<Span> = (0..64)
        .map(|k| Span {
            start: 16 * k + 10,
            len: 1,
        })
        .collect();
    assert_eq!(literals, wanted);
}

#[test]
fn every_key_and_operator() {
    for key in Key::ALL {
        for operator in Operator::ALL {
            let literal = match (key, operator) {
                (_, Operator::Contains | Operator::NotContains) => continue,
                (Key::Extra, Operator::Equal | Operator::NotEqual) => "b",
                (Key::Extra, _) => continue,
                _ => "1.2",
            };
            let text = format!("{key} {operator} '{literal}'");
            let found = read_marker(text.as_bytes()).unwrap();
            let is_version = key <= Key::ImplementationVersion;
            if operator == Operator::Compatible && !is_version {
                assert_eq!(found.comparisons().len(), 0, "{text}");
                continue;
            }
            let sort = match (key, operator) {
                (Key::Extra, _) => Sort::Extra(ExtraKind::Normal),
                (_, Operator::In | Operator::NotIn) if is_version => Sort::VersionList,
                _ if is_version => Sort::Version,
                _ => Sort::String,
            };
            let comparison = found.comparison(0).unwrap();
            assert_eq!(
                (comparison.sort, comparison.key, comparison.operator),
                (sort, key, operator),
                "{text}"
            );
            assert_eq!(comparison.literal.of(text.as_bytes()), literal.as_bytes());
            assert_eq!(found.comparison(1), None);
        }
    }
}

#[test]
fn every_refusal() {
    let seventeen = format!("a;{}os_name=='a'{}", "(".repeat(17), ")".repeat(17));
    let lines: [(&[u8], &str); 27] = [
        (&[b'a'; 4097], "1 at 4096, 1"),
        (b"a\x80", "2 at 1, 1"),
        (b" ", "3 at 0, 1"),
        (b"./foo", "4 at 0, 1"),
        (b"foo-;", "5 at 3, 1"),
        (b"a[", "6 at 1, 1"),
        (b"a[,b]", "7 at 2, 1"),
        (b"a[b,]", "8 at 4, 1"),
        (b"a[b c]", "9 at 4, 1"),
        (b"a[b$]", "10 at 3, 1"),
        (b"a[b-]", "11 at 3, 1"),
        (
            b"a[b,b,b,b,b,b,b,b,b,b,b,b,b,b,b,b,b,b,b,b,b,b,b,b,b,b,b,b,b,b,b,b,bc]",
            "12 at 66, 2",
        ),
        (b"a @ ", "13 at 4, 0"),
        (b"a ==x", "14 at 2, 3"),
        (b"a(>1", "15 at 1, 1"),
        (
            b"a>1,>1,>1,>1,>1,>1,>1,>1,>1,>1,>1,>1,>1,>1,>1,>1,>1,>1,>1,>1,>1,>1,>1,>1,>1,>1,>1,>1,>1,>1,>1,>1,>1",
            "16 at 97, 2",
        ),
        (b"a b", "17 at 2, 1"),
        (b"a;", "18 at 2, 1"),
        (b"a;b=='c'", "19 at 2, 1"),
        (b"a;os_name = 'b'", "20 at 10, 1"),
        (b"a;os_name not", "21 at 13, 1"),
        (b"a;(os_name=='b'", "22 at 2, 1"),
        (b"a;(os_name=='b' c", "23 at 16, 1"),
        (b"a;os_name=='b' c", "24 at 15, 0"),
        (seventeen.as_bytes(), "25 at 18, 1"),
        (&joined("os_name=='a'", 65), "26 at 1026, 12"),
        (&joined("'a'=='b'", 65), "27 at 770, 8"),
    ];
    for (number, (text, wanted)) in (1..).zip(lines) {
        assert_eq!(line(text), wanted);
        assert_eq!(
            read_line(text).unwrap_err().fault.number(),
            number,
            "one line for each"
        );
    }
    assert_eq!(normal("a$-", 9), "28 at 1, 1");
    assert_eq!(normal("A", 0), "29 at 0, 1");
    assert_eq!(verdict(check(&[0, 64], 1)), "30 at 1, 1");
    assert_eq!(verdict(check(&[0], 65)), "31 at 0, 1");
    assert_eq!(verdict(check(&[0], 1 << 32)), "31 at 0, 1");
}

fn joined(comparison: &str, times: usize) -> Vec<u8> {
    format!("a;{}", vec![comparison; times].join(" or ")).into_bytes()
}

#[test]
fn the_good_side_of_each_limit() {
    assert!(read_line(&[b'a'; MAX_LINE]).is_ok());
    let many = read_line(&joined("os_name=='a'", MAX_COMPARISONS)).unwrap();
    assert_eq!(many.marker().comparisons().len(), MAX_COMPARISONS);
    assert_eq!(many.marker().program().words().len(), MAX_WORDS);
    let many = read_line(&joined("'a'=='b'", MAX_WARNINGS)).unwrap();
    assert_eq!(many.marker().warnings().len(), MAX_WARNINGS);
    assert_eq!(many.marker().program().words(), [66]);
    let deep = format!(
        "{}os_name=='a'{}",
        "(".repeat(MAX_DEPTH),
        ")".repeat(MAX_DEPTH)
    );
    assert_eq!(marker(&deep), "String os_name == 'a', 0");
    let list = vec!["b"; MAX_LIST].join(",");
    let found = read_line(format!("a[{list}]").as_bytes()).unwrap();
    assert_eq!(found.extras().len(), MAX_LIST);
    assert_eq!(
        read_extras(format!("[{list}]").as_bytes()).unwrap().len(),
        MAX_LIST
    );
    let list = vec![">1"; MAX_LIST].join(",");
    let found = read_line(format!("a{list}").as_bytes()).unwrap();
    assert_eq!(found.specifiers().len(), MAX_LIST);
    let program = |values: usize| [vec![0; values], vec![65; values - 1]].concat();
    assert!(check(&program(MAX_VALUES), 64).is_ok());
    assert_eq!(verdict(check(&program(MAX_VALUES + 1), 64)), "30 at 35, 1");
}

#[test]
fn versions_patterns_specifiers() {
    assert_eq!(verdict(check_version(b"1!2.3rc4.post5.dev6+l.7")), "good");
    assert_eq!(verdict(check_version(b"1.*")), "14 at 0, 3");
    assert_eq!(verdict(check_version(b"")), "14 at 0, 0");
    assert_eq!(verdict(check_pattern(b"1.*")), "good");
    assert_eq!(verdict(check_pattern(b"1a1.*")), "14 at 0, 5");
    assert_eq!(verdict(check_specifier(b"==1.*")), "good");
    assert_eq!(verdict(check_specifier(b">1.*")), "14 at 0, 4");
    assert_eq!(verdict(check_specifier(b"1\xff")), "2 at 1, 1");
}

#[test]
fn names() {
    assert_eq!(normal("", 0), "");
    assert_eq!(normal("Foo._-Bar", 7), "foo-bar");
    assert_eq!(normal("Foo._-Bar", 6), "29 at 0, 1");
    assert_eq!(normal("a-", 2), "28 at 1, 1");
    let long = "A".repeat(100_000);
    assert_eq!(normal(&long, 100_000), "a".repeat(100_000));
}

#[test]
fn programs() {
    let text = b"os_name=='a' or os_name=='b' and os_name=='c'";
    let found = read_marker(text).unwrap();
    let program = found.program();
    for bits in 0..8_u64 {
        let [a, b, c] = [0, 1, 2].map(|k| bits >> k & 1 == 1);
        assert_eq!(program.run(bits), a || b && c);
        assert_eq!(
            program.run(bits | !7),
            a || b && c,
            "bits from the count up"
        );
        assert_eq!(run(program.words(), program.count(), bits), Ok(a || b && c));
        let by_literal = |c: Comparison| bits >> (c.literal.of(text)[0] - b'a') & 1 == 1;
        assert_eq!(found.holds(by_literal), a || b && c);
    }
    let same = Program::checked(program.words(), program.count());
    assert_eq!(same.as_ref(), Ok(program));
    assert_ne!(same.unwrap(), Program::checked(&[0], 1).unwrap());
    assert_eq!(
        refused(Program::checked(&[66; 200], 64).unwrap_err()),
        "30 at 35, 1"
    );
    assert_eq!(refused(run(&[], 0, 0).unwrap_err()), "30 at 0, 1");
    assert_eq!(
        refused(run(program.words(), 2, 7).unwrap_err()),
        "30 at 2, 1"
    );
    assert_eq!(
        refused(run(program.words(), 1 << 32, 7).unwrap_err()),
        "31 at 0, 1"
    );
    let wide = read_line(&joined("os_name=='a'", 64)).unwrap();
    for k in 0..64 {
        assert!(wide.marker().program().run(1 << k));
        let mut asked = 0;
        let only_k = |_| {
            asked += 1;
            asked == k + 1
        };
        assert!(wide.marker().holds(only_k));
        assert_eq!(asked, 64);
    }
    assert!(!wide.marker().program().run(0));
}

#[test]
fn a_refusal_shows_its_line() {
    let show = |line: &[u8]| read_line(line).unwrap_err().show(line).to_string();
    assert_eq!(
        show(b"a ==x"),
        "not a valid version, pattern or specifier\na ==x\n  ^^^"
    );
    // at the end, and an empty span: one `^`
    assert_eq!(
        show(b"a;"),
        "the marker ends where a value is wanted\na;\n  ^"
    );
    assert_eq!(
        show(b"a;)"),
        "neither a known marker name nor quoted\na;)\n  ^"
    );
    assert_eq!(show(b""), "no name before the end\n\n^");
    // one byte, one column
    assert_eq!(
        show("\t\u{1b}é".as_bytes()),
        "a byte that is not ASCII\n????\n  ^"
    );
    assert_eq!(
        read_line(b"a b").unwrap_err().to_string(),
        "the line goes on after its last part (refusal 17 at 2, 1)"
    );
    let error: Box<dyn std::error::Error> = Box::new(read_line(b"").unwrap_err());
    assert_eq!(
        error.to_string(),
        "no name before the end (refusal 3 at 0, 1)"
    );
}

#[test]
fn numbers_and_names() {
    for (number, fault) in (1..=41).zip(Fault::ALL) {
        assert_eq!(fault.number(), number);
        assert_eq!(Fault::from_number(number), Some(fault));
    }
    for number in (42..=255).chain([0]) {
        assert_eq!(Fault::from_number(number), None);
    }
    assert_eq!(
        format!("{:<10}|{:>4}", Key::OsName, Operator::In),
        "os_name   |  in"
    );
}

#[test]
fn spans_of_another_line() {
    let span = Span { start: 3, len: 4 };
    assert_eq!(span.of(b"0123456789"), b"3456");
    assert_eq!(span.of(b"01234"), b"34");
    assert_eq!(span.of(b"0"), b"");
    let most = Span {
        start: usize::MAX,
        len: usize::MAX,
    };
    assert_eq!(most.of(b"0"), b"");
}

#[test]
fn answers_can_be_compared_and_printed() {
    let one = read_line(b"a[b]>1;os_name=='c'").unwrap();
    assert_eq!(one, read_line(b"a[b]>1;os_name=='d'").unwrap());
    assert_ne!(one, read_line(b"a[b]>1;os_name<='c'").unwrap());
    assert_ne!(one, read_line(b"a[b]>1").unwrap());
    assert_eq!(
        format!("{one:?}"),
        "Requirement { name: Span { start: 0, len: 1 }, extras: [Span { start: 2, len: 1 }], \
         specifiers: [Span { start: 4, len: 2 }], url: None, marker: Marker { comparisons: [Comparison \
         { sort: String, key: OsName, operator: Equal, literal: Span { start: 17, len: 1 } }], \
         warnings: [], program: Program { words: [0], count: 1 } } }"
    );
}

#[test]
fn a_reader_reads_as_if_it_were_fresh() {
    let mut reader = Reader::new();
    let long = joined("os_name=='a'", 64);
    let lines: [&[u8]; 8] = [
        &long,
        b"a[b,c]>1,<2;extra=='d' or 'e'=='f'",
        b"foo-;",
        b"a @ x ; python_version>'3'",
        b"a",
        b"",
        b"a(>1);os_name=='b'",
        b"a[b]",
    ];
    for line in lines {
        assert_eq!(reader.read(line).copied(), read_line(line));
    }
}

#[test]
fn many_threads_at_once() {
    let text = joined("python_version>='3.8' and extra=='a'", 20);
    let wanted = line(&text);
    std::thread::scope(|scope| {
        for _ in 0..8 {
            scope.spawn(|| {
                for _ in 0..200 {
                    assert_eq!(line(&text), wanted);
                }
            });
        }
    });
}
