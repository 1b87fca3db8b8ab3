//! The calls over samples, which lie beside this file: the crate can be copied by itself.

use pslink::{
    Error, Fault, File, FileType, Finding, Form, Name, Order, Reason, Summary, Text, Weight,
};
use std::borrow::Cow;
use std::collections::HashSet;
use std::rc::Rc;

/// Where the library says how many words the private variable of record 1 has.
const WORDS_OF_STATE: usize = 1024 + 32 + 14;

fn sample(name: &str) -> Vec<u8> {
    let path = format!("{}/tests/samples/{name}", env!("CARGO_MANIFEST_DIR"));
    std::fs::read(&path).unwrap_or_else(|error| panic!("{path}: {error}"))
}

const UTIL: Name = Name(*b"UTIL    ");

/// The pair of samples as files, with these names.
fn pair<'a>(host: &'a [u8], library: &'a [u8]) -> (File<'a>, [File<'a>; 1]) {
    (("HOST", host).into(), [("LIB1", library).into()])
}

fn refused<T: std::fmt::Debug>(result: Result<T, Error>) -> Fault {
    match result {
        Err(Error::Refused(fault)) => fault,
        other => panic!("{other:?}"),
    }
}

fn numbers(summary: Summary) -> (usize, u32, usize) {
    (summary.segments, summary.private_words, summary.blocks)
}

#[test]
fn a_link_is_as_long_as_its_result() {
    let (linked, summary) =
        pslink::link_with_summary(sample("host.code"), [sample("library.code").into()]).unwrap();
    assert_eq!(numbers(summary), (2, 4, 3));
    assert_eq!(linked.len(), 3 * 512);
    assert_eq!(linked.capacity(), linked.len());
    assert_eq!(
        linked[512..530],
        *b"\xD7\xD7\xC1\0\x12\0\x04\0\x06\0\x0A\0\x01\0\x02\0\x01\x01"
    );
    assert_eq!(
        linked[1024..1048],
        *b"\xA5\x80\x03\xAB\x80\x0A\xD7\xD7\xAD\0\0\0\0\0\x06\0\x10\0\x01\0\x02\0\x07\x01"
    );
    assert_eq!(
        pslink::link(sample("host.code"), [sample("library.code").into()]),
        Ok(linked)
    );
}

#[test]
fn the_map_is_that_of_the_samples() {
    let map = pslink::map(sample("host.code"), [sample("library.code").into()]).unwrap();
    assert_eq!(map.as_bytes(), sample("host.map"));
}

#[test]
fn a_show_has_a_line_for_each_slot() {
    let show = pslink::show(sample("library.code")).unwrap();
    assert!(show.starts_with("order little\n"));
    assert_eq!(
        show.lines()
            .filter(|line| line.starts_with("slot "))
            .count(),
        16
    );
}

#[test]
fn a_report_names_the_files_and_has_the_verdict() {
    let (host, mut library) = (sample("host.code"), sample("library.code"));
    let (first, libs) = pair(&host, &library);
    let report = pslink::check(first, libs).unwrap();
    assert!(report
        .text
        .starts_with("file 0 HOST: 1536 bytes, little-endian\n"));
    assert!(report
        .text
        .contains("\nlinks: segments 2 private words 4 blocks 3\n"));
    assert!(report
        .text
        .ends_with("\nreferences of UTIL: 2 of 2 lead to operands, 1 of them to 80 00\n"));
    assert!(report.ok() && report.findings.is_empty());
    assert_eq!(report.verdict.map(numbers), Ok((2, 4, 3)));
    // Its private variable has two words, and the operand is the third.
    library[WORDS_OF_STATE] = 2;
    let report = pslink::check(("one", &host), [("two", &library).into()]).unwrap();
    assert!(report.ok());
    assert_eq!((report.warnings().count(), report.notes().count()), (1, 0));
    assert!(report
        .text
        .contains("\nwarning: two, segment UTIL, record 1: "));
    let report = pslink::check(&host, []).unwrap();
    assert!(!report.ok());
    assert!(report
        .text
        .contains("\npslink: refused 13 MissingUnit file 0 slot 7\n"));
    let fault = report.verdict.unwrap_err();
    assert_eq!(
        (fault.reason, fault.path.as_str()),
        (Reason::MissingUnit, "file 0")
    );
    let short = pslink::check(("HOST", &host), [("LIB1", &host[..511]).into()]).unwrap();
    assert_eq!(short.verdict.unwrap_err().path, "LIB1");
}

#[test]
fn files_are_anything_with_bytes() {
    let (host, library) = (sample("host.code"), sample("library.code"));
    let linked = pslink::link(&host, [(&library).into()]).unwrap();
    let libs = vec![library.clone()];
    assert_eq!(
        pslink::link(host.as_slice(), libs.iter().map(File::from)).unwrap(),
        linked
    );
    assert_eq!(
        pslink::link(
            &host.clone().into_boxed_slice(),
            vec![File::from(library.as_slice())]
        )
        .unwrap(),
        linked
    );
    let shared: Rc<[u8]> = library.as_slice().into();
    assert_eq!(pslink::link(&host, [File::of(&shared)]).unwrap(), linked);
    let array = <&[u8; 1536]>::try_from(library.as_slice()).unwrap();
    assert_eq!(pslink::link(&host, [array.into()]).unwrap(), linked);
    let borrowed = Cow::Borrowed(library.as_slice());
    assert_eq!(pslink::link(&host, [(&borrowed).into()]).unwrap(), linked);
    assert_eq!(
        pslink::link(("a", host), [(String::from("b"), library).into()]).unwrap(),
        linked
    );
    assert!(pslink::link(sample("two_units.code"), []).is_ok());
}

#[test]
fn a_pair_that_is_kept_is_a_file() {
    let host: (String, Vec<u8>) = ("HOST".into(), sample("host.code"));
    let libs = [(String::from("LIB1"), sample("library.code"))];
    let linked = pslink::link(&host, libs.iter().map(File::from)).unwrap();
    assert_eq!(pslink::link(&host.1, [(&libs[0].1).into()]), Ok(linked));
    assert_eq!(refused(pslink::link(&host, [])).path, "HOST");
    let report = pslink::check(&host, [(&libs[0]).into()]).unwrap();
    let lines = "file 0 HOST: 1536 bytes, little-endian\nfile 1 LIB1: 1536 bytes, little-endian\n";
    assert!(report.text.starts_with(lines), "{}", report.text);
}

#[test]
fn a_name_has_its_text() {
    assert_eq!(UTIL.to_string(), "UTIL");
    assert_eq!(format!("{UTIL:6}|"), "UTIL  |");
    assert_eq!(UTIL, "UTIL");
    assert_ne!(UTIL, "UTI");
    assert_eq!(Name(*b" A\0\xFFB   ").to_string(), " A??B");
    assert_eq!(Name(*b"        ").to_string(), "");
    assert_eq!(Name(*b"        "), "");
}

#[test]
fn a_null_character_of_a_name_is_shown() {
    let report = pslink::check(("a\0b", b""), []).unwrap();
    assert!(report.text.starts_with("file 0 a\u{FFFD}b: "));
}

#[test]
fn a_refusal_has_the_parts_of_its_fault() {
    let fault = refused(pslink::link(sample("host.code"), []));
    assert_eq!(
        (fault.reason, fault.number(), fault.file),
        (Reason::MissingUnit, 13, 0)
    );
    assert_eq!(
        (fault.kind, fault.slot, fault.record, fault.reference),
        (None, Some(7), None, None)
    );
    assert_eq!(fault.about, Some(UTIL));
    assert_eq!(fault.path, "file 0");
    assert_eq!(fault.to_string(), "refused 13 MissingUnit file 0 slot 7");
    let error: Box<dyn std::error::Error> = Error::from(fault).into();
    assert_eq!(error.to_string(), "refused 13 MissingUnit file 0 slot 7");
    let short = refused(pslink::show(b""));
    assert_eq!(
        (short.reason, short.slot, short.about),
        (Reason::ShortFile, None, None)
    );
    let mut library = sample("library.code");
    library[196] = 4;
    let no_unit = refused(pslink::link(sample("host.code"), [library.into()]));
    assert_eq!(
        (no_unit.reason, no_unit.kind, no_unit.file),
        (Reason::NotAUnit, Some(4), 1)
    );
}

#[test]
fn a_text_is_what_the_program_prints() {
    let (host, library) = (sample("host.code"), sample("library.code"));
    let (first, libs) = pair(&host, &library);
    let text = |what, form| pslink::text(what, form, first.clone(), libs.clone()).unwrap();
    let map = text(Text::Map, Form::Lines);
    assert_eq!(map.as_bytes(), sample("host.map"));
    let references = text(Text::References, Form::Lines);
    assert!(references.len() > map.len() && references.starts_with(&map));
    assert_eq!(text(Text::Show, Form::Lines), pslink::show(&host).unwrap());
    let report = pslink::check(first.clone(), libs.clone()).unwrap();
    assert_eq!(text(Text::Check, Form::Lines), report.text);
    assert!(text(Text::List, Form::Lines).starts_with("HOST: little-endian, 1536 bytes, host\n"));
    assert!(text(Text::Units, Form::Lines).contains("\nLIB1: little-endian, 1536 bytes, library\n"));
    let documents = [
        Text::Map,
        Text::References,
        Text::Show,
        Text::Check,
        Text::List,
        Text::Units,
        Text::Findings,
    ];
    for what in documents {
        let document = text(what, Form::Json);
        assert!(
            document.starts_with('{') && document.ends_with("}\n"),
            "{document}"
        );
    }
    let units = "],\"units\":[\n{\"slot\":2,\"name\":\"UTIL    \",\"name_hex\":\"5554494C20202020\",\"fault\":null}\n]}";
    assert!(text(Text::Units, Form::Json).contains(units));
    let alone = pslink::text(Text::Map, Form::Lines, first.clone(), []);
    assert_eq!(refused(alone).number(), 13);
}

#[test]
fn what_is_found_is_told_one_by_one() {
    let (host, mut library) = (sample("host.code"), sample("library.code"));
    let none = pslink::check(&host, [(&library).into()]).unwrap();
    assert_eq!(none.findings, []);
    // Padding, a procedure of another number, a private variable of two words, and an operand without
    // its bit 7.
    library[530] = 3;
    library[513] = 0;
    library[WORDS_OF_STATE] = 2;
    library.extend([0x1A; 2]);
    let path = "a \"path\" \\ \u{1}\n\u{1F4BE}";
    let report = pslink::check(("HOST", &host), [(path, &library).into()]).unwrap();
    let parts = |one: &Finding| (one.weight, one.segment, one.record, one.text.clone());
    let util = Some(UTIL);
    assert_eq!((report.warnings().count(), report.notes().count()), (1, 2));
    assert_eq!(
        report.findings.iter().map(parts).collect::<Vec<_>>(),
        [
            (
                Weight::Harmless,
                None,
                None,
                "its last 2 bytes are 1A: it was padded, as by CP/M".to_owned()
            ),
            (
                Weight::Note,
                util,
                None,
                "the attribute table of procedure 1 says that it is procedure 3: the code may be damaged"
                    .to_owned()
            ),
            (
                Weight::Warning,
                util,
                Some(1),
                "the operand at byte 4 is word 2 of a variable that has 2".to_owned()
            ),
            (
                Weight::Note,
                util,
                Some(0),
                "the operand at byte 1 may be damaged: its bit 7 is clear, and a compiler sets it"
                    .to_owned()
            ),
        ]
    );
    assert!(report.findings.iter().all(|one| one.path == path));
    assert_eq!(Weight::Warning.to_string(), "warning");
}

#[test]
fn a_path_of_a_finding_is_the_name_that_was_given() {
    let (host, mut library) = (sample("host.code"), sample("library.code"));
    library.extend([0x1A; 2]);
    let acted_on = ('\u{1}'..' ').chain('\u{7F}'..'\u{A0}');
    let others = [
        '"',
        '\\',
        '/',
        '\u{200B}',
        '\u{2028}',
        '\u{2029}',
        '\u{FFFF}',
        '\u{1F4BE}',
        '\u{10FFFF}',
    ];
    for c in acted_on.chain(others) {
        let path = format!("a{c}b");
        let report = pslink::check(("HOST", &host), [(&path[..], &library).into()]).unwrap();
        let paths: Vec<&str> = report.findings.iter().map(|one| &one.path[..]).collect();
        assert_eq!(paths, [path.as_str()]);
    }
}

#[test]
fn a_name_has_its_eight_bytes() {
    let (mut host, mut library) = (sample("host.code"), sample("library.code"));
    // A private variable has two words, and the operand is the third; slot 3 of the library has the code
    // of slot 2 by a name that is printed.
    library[WORDS_OF_STATE] = 2;
    library.copy_within(8..12, 12);
    library[88..96].copy_from_slice(b"OTHER   ");
    library[198] = 3;
    for bytes in [
        b" UTIL\t  ",
        b"\0UTIL   ",
        b"UT\0\xFFL   ",
        b"UT\xC9L    ",
        b"\0\0\0\0\0\0\0 ",
    ] {
        let name = Name(*bytes);
        host[120..128].copy_from_slice(bytes);
        library[80..88].copy_from_slice(bytes);
        let fault = refused(pslink::link(&host, []));
        assert_eq!(
            (fault.reason, fault.about),
            (Reason::MissingUnit, Some(name))
        );
        assert_eq!(pslink::units_wanted(&host, []), Ok(vec![name]));
        assert_eq!(
            pslink::units_had(&library),
            Ok(vec![name, Name(*b"OTHER   ")])
        );
        let report = pslink::check(&host, [(&library).into()]).unwrap();
        let warned = report.warnings().next().unwrap();
        assert_eq!((warned.segment, warned.record), (Some(name), Some(1)));
    }
}

#[test]
fn each_reason_has_its_sentences() {
    assert_eq!(
        Reason::TwoHosts.meaning(),
        "A second segment is a host program."
    );
    assert_eq!(Reason::TwoHosts.remedy(), "Keep one of them in the file.");
    let sentences = Reason::ALL
        .iter()
        .flat_map(|one| [one.meaning(), one.remedy()]);
    assert!(sentences
        .into_iter()
        .all(|sentence| sentence.ends_with('.')));
    for number in [0, 100, 255] {
        assert_eq!(pslink::fault_meaning(number), "");
        assert_eq!(pslink::fault_remedy(number), "");
    }
}

#[test]
fn the_units_of_a_host_and_of_a_library_are_named() {
    let host = sample("host.code");
    assert_eq!(pslink::units_wanted(&host, []).unwrap(), [UTIL]);
    assert_eq!(pslink::units_had(sample("library.code")).unwrap(), [UTIL]);
    let both = pslink::units_had(sample("two_units.code")).unwrap();
    assert_eq!(both.iter().collect::<HashSet<_>>().len(), 2);
    let none = refused(pslink::units_had(&host[..511]));
    assert_eq!(none.reason, Reason::ShortFile);
    let linked = pslink::link(&host, [sample("library.code").into()]).unwrap();
    assert!(pslink::units_wanted(&linked, []).unwrap().is_empty());
    assert!(pslink::units_had(&linked).unwrap().is_empty());
}

/// A file with the words of its dictionary in the other byte order.
fn turned(mut file: Vec<u8>) -> Vec<u8> {
    for at in (0..64).chain(192..224).step_by(2) {
        file.swap(at, at + 1);
    }
    file
}

#[test]
fn each_file_has_its_type() {
    let (host, library) = (sample("host.code"), sample("library.code"));
    let linked = pslink::link(&host, [(&library).into()]).unwrap();
    // Slot 3 has the code of slot 2, and the kind 0.
    let mut mixed = library.clone();
    mixed.copy_within(8..12, 12);
    mixed[88..96].copy_from_slice(b"OTHER   ");
    let types: [(&[u8], FileType, &str); 9] = [
        (&host, FileType::Host(Order::Little), "host little"),
        (&library, FileType::Library(Order::Little), "library little"),
        (&linked, FileType::Linked(Order::Little), "linked little"),
        (&mixed, FileType::Mixed(Order::Little), "mixed little"),
        (
            &turned(host.clone()),
            FileType::Host(Order::Big),
            "host big",
        ),
        (
            &turned(library.clone()),
            FileType::Library(Order::Big),
            "library big",
        ),
        (&host[..511], FileType::Other, "other"),
        (b"PROGRAM DEMO;\n", FileType::Other, "other"),
        (b"", FileType::Other, "other"),
    ];
    for (file, wanted, words) in types {
        let file_type = pslink::file_type(file).unwrap();
        assert_eq!((file_type, file_type.to_string().as_str()), (wanted, words));
    }
}

#[test]
fn a_library_is_one_for_a_host_of_its_byte_order() {
    let (little, big) = (Order::Little, Order::Big);
    let host = FileType::Host(little);
    for libraries in [FileType::Library, FileType::Mixed] {
        assert!(libraries(little).is_library_for(host));
        assert!(!libraries(big).is_library_for(host));
        assert!(libraries(big).is_library_for(FileType::Host(big)));
        assert!(!libraries(little).is_library_for(FileType::Other));
    }
    for other in [host, FileType::Linked(little), FileType::Other] {
        assert!(!other.is_library_for(host));
    }
    assert_eq!(FileType::Linked(big).order(), Some(big));
    assert_eq!(FileType::Other.order(), None);
}

#[test]
fn the_reasons_are_those_of_the_library() {
    for (number, reason) in (1..).zip(Reason::ALL) {
        assert_eq!(reason.number(), number);
    }
    for number in 0..=255 {
        let name = Reason::of_number(number).map_or("", Reason::name);
        assert_eq!(pslink::fault_name(number), name, "{number}");
    }
    let names: HashSet<&str> = Reason::ALL.iter().map(|reason| reason.name()).collect();
    assert_eq!(names.len(), Reason::ALL.len());
}

#[test]
fn the_release_is_that_of_this_crate() {
    let parts = env!("CARGO_PKG_VERSION");
    let number = parts.split('.').fold(0, |number, part| {
        100 * number + part.parse::<u32>().unwrap()
    });
    assert_eq!(pslink::release_number(), number);
    let said = Error::Release(number + 100).to_string();
    let (first, last) = (pslink::RELEASE_NUMBER, number / 100 * 100 + 99);
    assert!(first <= number);
    assert!(said.ends_with(&format!("from {first} to {last}")), "{said}");
}

#[test]
fn results_take_no_more_memory_than_they_are_long() {
    let (host, library) = (sample("host.code"), sample("library.code"));
    let linked: Vec<Vec<u8>> = (0..5000)
        .map(|_| pslink::link(&host, [(&library).into()]).unwrap())
        .collect();
    assert_eq!(linked.iter().map(Vec::capacity).sum::<usize>(), 5000 * 1536);
}
