//! The program: what it prints and its exit status.
use std::io::Write;
use std::process::{Command, Output, Stdio};

fn run(words: &[&str], input: &[u8]) -> Output {
    let mut child = Command::new(env!("CARGO_BIN_EXE_m2ua-plan"))
        .args(words)
        .stdin(Stdio::piped())
        .stdout(Stdio::piped())
        .stderr(Stdio::piped())
        .spawn()
        .unwrap();
    // the program may end before it reads
    let _ = child.stdin.take().unwrap().write_all(input);
    child.wait_with_output().unwrap()
}

fn said(output: &Output) -> (i32, String, String) {
    (
        output.status.code().unwrap(),
        String::from_utf8_lossy(&output.stdout).into(),
        String::from_utf8_lossy(&output.stderr).into(),
    )
}

const TEXT: &[u8] = b"asp a id 7\nas x mode broadcast members a\nlink 1-2 as x\n";

#[test]
fn compile_check_show() {
    let compiled = run(&["compile", "-"], TEXT);
    assert_eq!(
        (compiled.status.code(), compiled.stderr.len()),
        (Some(0), 0)
    );
    assert_eq!(
        said(&run(&["show", "-"], &compiled.stdout)),
        (
            0,
            "asp asp0 id 7\nas as0 mode broadcast members asp0\nlink 1-2 as as0\n".into(),
            "".into()
        )
    );
    assert_eq!(
        said(&run(&["check", "-"], &compiled.stdout)),
        (0, "-: 1 ASPs, 1 ASes, 2 links\n".into(), "".into())
    );
    assert_eq!(
        said(&run(&["check", "-"], TEXT)),
        (0, "-: 1 ASPs, 1 ASes, 2 links\n".into(), "".into())
    );
    assert_eq!(
        said(&run(&["show", "-"], TEXT)),
        (0, String::from_utf8_lossy(TEXT).into(), "".into())
    );
}

#[test]
fn high_speed_links_are_shown_and_counted() {
    let text =
        b"asp a id 7\nas x mode broadcast members a\nlink 3 as x\nlink 1-2 high-speed as x\n";
    let compiled = run(&["compile", "-"], text);
    assert_eq!(compiled.status.code(), Some(0));
    assert_eq!(
        said(&run(&["show", "-"], &compiled.stdout)),
        (
            0,
            "asp asp0 id 7\nas as0 mode broadcast members asp0\nlink 1-2 as as0 high-speed\nlink 3 as as0\n".into(),
            "".into()
        )
    );
    for file in [&text[..], &compiled.stdout] {
        assert_eq!(
            said(&run(&["check", "-"], file)),
            (
                0,
                "-: 1 ASPs, 1 ASes, 3 links, 2 of them high-speed\n".into(),
                "".into()
            )
        );
    }
    // a kind that there is not
    let mut file = compiled.stdout;
    file[41] = 2;
    assert_eq!(
        said(&run(&["show", "-"], &file)),
        (
            1,
            "".into(),
            "-: link row 0 (byte 36): kind 2 is neither 0, plain, nor 1, high-speed (202)\n".into()
        )
    );
    assert_eq!(
        said(&run(
            &["compile", "-"],
            b"asp a id 7\nas x mode override high-speed\n"
        )),
        (
            1,
            "".into(),
            "-: line 2: as x: 'high-speed' is no option of as here: mode, members\n".into()
        )
    );
}

#[test]
fn whole_lists_are_shown_and_counted() {
    let text = b"asp a id 7\nasp b whole-lists id 8\nas x mode broadcast members a b\n";
    let compiled = run(&["compile", "-"], text);
    assert_eq!(compiled.status.code(), Some(0));
    assert_eq!(
        said(&run(&["show", "-"], &compiled.stdout)),
        (
            0,
            "asp asp0 id 7\nasp asp1 id 8 whole-lists\nas as0 mode broadcast members asp0 asp1\n"
                .into(),
            "".into()
        )
    );
    for file in [&text[..], &compiled.stdout] {
        assert_eq!(
            said(&run(&["check", "-"], file)),
            (
                0,
                "-: 2 ASPs (1 with whole-lists), 1 ASes, 0 links\n".into(),
                "".into()
            )
        );
    }
    // a spare that there is not
    let mut file = compiled.stdout;
    file[31] = 2;
    assert_eq!(
        said(&run(&["check", "-"], &file)),
        (
            1,
            "".into(),
            "-: ASP row 0 (byte 24): spare 2 is neither 0, part of a list may succeed, nor 1, whole lists (202)\n"
                .into()
        )
    );
    assert_eq!(
        said(&run(
            &["compile", "-"],
            b"asp a id 7 whole\nas x mode override\n"
        )),
        (
            1,
            "".into(),
            "-: line 1: asp a: 'id' takes one word: the ASP identifier, a number; and 'whole' follows it\n".into()
        )
    );
}

#[test]
fn refused_plans_are_status_1() {
    assert_eq!(
        said(&run(&["compile", "-"], b"asp a id 7\n")),
        (
            1,
            "".into(),
            "-: as: there is none; a plan has 1 to 16\n".into()
        )
    );
    let mut file = run(&["compile", "-"], TEXT).stdout;
    file[35] = 9;
    assert_eq!(
        said(&run(&["check", "-"], &file)),
        (
            1,
            "".into(),
            "-: AS row 0 (byte 32): traffic mode 9 is not 1, 2 or 3 (202)\n".into()
        )
    );
    assert_eq!(
        said(&run(&["show", "-"], b"")),
        (
            1,
            "".into(),
            "-: file: 0 bytes; the contents alone have 24 (201)\n".into()
        )
    );
    assert_eq!(run(&["compile", "-"], &[0xff, 0xfe]).status.code(), Some(1));
}

#[test]
fn a_file_is_written_whole_or_not_at_all() {
    let dir = std::env::temp_dir().join(format!("m2ua-plan-{}", std::process::id()));
    std::fs::create_dir_all(&dir).unwrap();
    let file = dir.join("s.plan");
    let path = file.to_str().unwrap();
    assert_eq!(
        run(&["compile", "-", "-o", path], TEXT).status.code(),
        Some(0)
    );
    let first = std::fs::read(&file).unwrap();
    assert_eq!(
        run(&["compile", "-", "-o", path], b"nonsense")
            .status
            .code(),
        Some(1)
    );
    assert_eq!(std::fs::read(&file).unwrap(), first);
    assert_eq!(std::fs::read_dir(&dir).unwrap().count(), 1);
    std::fs::remove_dir_all(&dir).unwrap();
}

#[test]
fn wrong_usage_is_status_2() {
    for words in [
        &[][..],
        &["compile"],
        &["show", "a", "b"],
        &["load", "x"],
        &["check", "/nonexistent/file"],
        &["compile", "-", "-o", "/nonexistent/file"],
    ] {
        let (status, out, err) = said(&run(words, TEXT));
        assert_eq!((status, out.as_str()), (2, ""), "{words:?}");
        assert!(!err.is_empty());
    }
    assert_eq!(run(&["--help"], b"").status.code(), Some(0));
    assert_eq!(
        said(&run(&["--version"], b"")),
        (0, format!("m2ua-plan {}\n", m2ua_version()), "".into())
    );
}

fn m2ua_version() -> &'static str {
    env!("CARGO_PKG_VERSION")
}
