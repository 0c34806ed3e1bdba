//! The listing program, the resolving one, and the walking one.

use std::io::Write;
use std::process::{Command, Output, Stdio};

fn run(arguments: &[&str], input: &[u8]) -> Output {
    let mut child = Command::new(env!("CARGO_BIN_EXE_oracle"))
        .args(arguments)
        .stdin(Stdio::piped())
        .stdout(Stdio::piped())
        .stderr(Stdio::piped())
        .spawn()
        .unwrap();
    // A program that refuses its arguments may end before it reads.
    let _ = child.stdin.take().unwrap().write_all(input);
    child.wait_with_output().unwrap()
}

fn assert_printed(arguments: &[&str], input: &[u8], lines: &str) {
    let output = run(arguments, input);
    assert!(output.status.success());
    assert_eq!(String::from_utf8(output.stdout).unwrap(), lines);
}

fn assert_listed(input: &[u8], lines: &str) {
    assert_printed(&["list"], input, lines);
}

#[test]
fn lists_links_with_their_parameters() {
    assert_listed(b"", "links\t0\t0\n");
    assert_listed(
        b"<a>;x,<b>,<c>;y=z\n",
        "links\t3\t2\n\
         link\t0\t1\t2\t0\t1\n\
         param\t0\t4\t5\t5\t5\t0\t0\n\
         link\t1\t7\t8\t1\t0\n\
         link\t2\t11\t12\t1\t1\n\
         param\t1\t14\t15\t16\t17\t1\t0\n",
    );
}

#[test]
fn drops_one_final_lf_only() {
    assert_listed(b"\n", "links\t0\t0\n");
    assert_listed(b"\n\n", "refused\t2\t0\n");
    assert_listed(b"<a>\r\n", "refused\t2\t3\n");
    assert_listed(&[b' '; 8192], "links\t0\t0\n");
    assert_listed(&[&[b' '; 8192][..], b"\n"].concat(), "links\t0\t0\n");
    assert_listed(&[b' '; 8193], "refused\t1\t0\n");
}

#[test]
fn lends_room_for_256_links_and_1024_parameters() {
    let links = b"<>,".repeat(256);
    assert!(run(&["list"], &links)
        .stdout
        .starts_with(b"links\t256\t0\n"));
    assert_listed(&[&links[..], b"<>"].concat(), "refused\t3\t0\n");
    let params = [b"<>", &b";x".repeat(1024)[..]].concat();
    assert!(run(&["list"], &params)
        .stdout
        .starts_with(b"links\t1\t1024\n"));
    assert_listed(&[&params[..], b";x"].concat(), "refused\t4\t0\n");
    assert_listed(b"<a>;rel=next;\n", "refused\t2\t13\n");
}

#[test]
fn resolves_targets_and_contexts() {
    let base = "http://a/b/c/d;p?q#f";
    let resolved = |header: &str, lines| {
        assert_printed(&["resolve", base], header.as_bytes(), lines);
    };
    resolved("", "");
    resolved("\n", "");
    resolved("<>", "0\thttp://a/b/c/d;p?q\thttp://a/b/c/d;p?q\n");
    resolved(
        "<../g>;anchor=\"\\#s\", <//h>;anchor\n",
        "0\thttp://a/b/g\thttp://a/b/c/d;p?q#s\n1\thttp://h\thttp://a/b/c/d;p?q\n",
    );
    // A refused link has its own line, and the others theirs.
    resolved(
        "<a>;anchor=%,<b:c>;anchor=\"x:y\",<d>;anchor=\"[\"",
        "refused\t13\t0\n1\tb:c\tx:y\nrefused\t13\t0\n",
    );
    resolved("<a>;rel=next;\n", "refused\t2\t13\n");
    resolved("\n\n", "refused\t2\t0\n");
    resolved(&"<>,".repeat(257), "refused\t3\t0\n");
}

#[test]
fn a_wrong_header_comes_first_and_then_a_wrong_base() {
    let long = "a:".to_string() + &"b".repeat(8191);
    for header in [&b""[..], b"<a>", b"<a>;anchor=%\n", b"<a>,<b>"] {
        for base in [&[][..], &[""], &["b"], &["a:b#c#d"], &["a:b", "a:b"]] {
            let arguments = [&["resolve"], base].concat();
            assert_printed(&arguments, header, "refused\t12\t0\n");
            assert_printed(&arguments, b"<1:a>", "refused\t2\t1\n");
        }
        assert_printed(&["resolve", &long], header, "refused\t1\t0\n");
        assert_printed(&["resolve", &long], b"<1:a>", "refused\t2\t1\n");
    }
}

#[test]
fn a_result_may_be_too_long() {
    let base = "a:/".to_string() + &"b".repeat(8188) + "/";
    let lines = format!("refused\t1\t0\n1\t{base}\t{base}\nrefused\t1\t0\n");
    assert_printed(&["resolve", &base], b"<c>,<>,<>;anchor=c", &lines);
}

const CATALOGUE: &str = "http://a/0/\t<../1/>;rel=next\n\
     http://a/1/\t<../0/>;rel=prev,<../2/#s>;rel=next\n\
     a:2\t<b>;rel=prev,</>;rel=next\n";

fn assert_walked(words: &[&str], catalogue: &[u8], line: &str) {
    assert_printed(&[&["walk"], words].concat(), catalogue, line);
}

#[test]
fn walks_and_tells_the_last_pack() {
    let walked = |start, steps, line| assert_walked(&[start, steps], CATALOGUE.as_bytes(), line);
    walked("0", "0", "arrived\t0\thttp://a/0/\t0\n");
    walked("0", "1", "arrived\t1\thttp://a/1/\t1\n");
    walked("0", "2", "no-pack\t1\thttp://a/1/\t1\n");
    walked("1", "-64", "no-link\t0\thttp://a/0/\t1\n");
    walked("02", "-0", "arrived\t2\ta:2\t0\n");
    walked("2", "-1", "no-pack\t2\ta:2\t0\n");
    let long = format!("a:/{}/\t<b>;rel=next\n", "c".repeat(8188));
    let line = format!("no-target\t0\ta:/{}/\t0\n", "c".repeat(8188));
    assert_walked(&["0", "1"], long.as_bytes(), &line);
}

#[test]
fn refuses_to_walk() {
    let refused = |words: &[&str], catalogue: &str, number| {
        assert_walked(words, catalogue.as_bytes(), &format!("refused\t{number}\n"));
    };
    for catalogue in [CATALOGUE, "", "a"] {
        for words in [
            &[][..],
            &["0"],
            &["0", "1", "2"],
            &["0", ""],
            &["x", "65"],
            &["0", "+1"],
        ] {
            refused(words, catalogue, 14);
        }
        for steps in [
            "65",
            "-65",
            "2147483648",
            "-2147483649",
            "1x",
            "00000000001",
        ] {
            refused(&["0", steps], catalogue, 14);
        }
    }
    for start in [
        "3",
        "x",
        "-0",
        "",
        "18446744073709551616",
        "000000000000000000000",
    ] {
        refused(&[start, "1"], "a", 15);
        refused(&[start, "1"], CATALOGUE, 8);
        refused(&[start, "1"], "", 8);
    }
    let params = |count| format!("a:\t<b>{}\n", ";x".repeat(count));
    let links = |count| format!("a:\t{}\n", "<>,".repeat(count));
    assert_walked(&["0", "0"], params(1024).as_bytes(), "arrived\t0\ta:\t0\n");
    assert_walked(&["0", "0"], links(256).as_bytes(), "arrived\t0\ta:\t0\n");
    refused(&["0", "0"], &params(1025), 15);
    refused(&["0", "0"], &links(257), 15);
}

#[test]
fn a_file_that_is_not_read_comes_first() {
    for words in [vec![], vec!["0", "0"], vec!["x", "65"]] {
        let words: Vec<Vec<u8>> = words.into_iter().map(Vec::from).collect();
        assert_eq!(oracle::walking(None, &words), b"unread\n");
    }
}

#[test]
fn knows_no_other_command() {
    for arguments in [&[][..], &["read"], &["list", "list"], &["vectors", "a"]] {
        let output = run(arguments, b"");
        assert_eq!(output.status.code(), Some(2));
        assert!(output.stdout.is_empty());
    }
}
