//! Every row of "Headers read by hand".

use crate::{accepted, read_amply, refusal, written};
use oracle::{listing, PARAM_SLOTS};

fn assert_read(header: &str, links: &[[usize; 4]], params: &[[usize; PARAM_SLOTS]]) {
    let tables = accepted(header.as_bytes());
    assert_eq!(tables.link_slots, links.concat(), "{header}");
    assert_eq!(tables.param_slots, params.concat(), "{header}");
}

fn assert_malformed(header: &str, place: usize) {
    let (answer, _) = read_amply(0, header.as_bytes());
    assert_eq!(answer, refusal(2, place), "{header}");
}

#[test]
fn no_links() {
    assert_read("", &[], &[]);
    assert_read(",, ,", &[], &[]);
    assert_eq!(written(&accepted(b"")), Ok(String::new()));
    assert_eq!(written(&accepted(b",, ,")), Ok(String::new()));
}

#[test]
fn copyright_with_its_listing_and_written_form() {
    let header = r##"</terms>; rel="copyright"; anchor="#foo""##;
    assert_read(
        header,
        &[[1, 7, 0, 2]],
        &[[10, 13, 15, 24, 2, 1], [27, 33, 35, 39, 2, 2]],
    );
    assert_eq!(
        listing(header.as_bytes()),
        "links\t1\t2\n\
         link\t0\t1\t7\t0\t2\n\
         param\t0\t10\t13\t15\t24\t2\t1\n\
         param\t1\t27\t33\t35\t39\t2\t2\n"
    );
    assert_eq!(
        written(&accepted(header.as_bytes())).unwrap(),
        "</terms>; rel=copyright; anchor=#foo"
    );
}

#[test]
fn empty_target_and_no_relation() {
    assert_read("<>;x", &[[1, 1, 0, 1]], &[[3, 4, 4, 4, 0, 0]]);
    assert_eq!(written(&accepted(b"<>;x")), Err(6));
}

#[test]
fn only_the_first_rel_is_kept() {
    let header = "<a>;REL=Next;rel=prev";
    assert_read(header, &[[1, 2, 0, 1]], &[[4, 7, 8, 12, 1, 1]]);
    assert_eq!(
        written(&accepted(header.as_bytes())).unwrap(),
        "<a>; rel=Next"
    );
}

#[test]
fn an_escaped_relation() {
    let header = r#"<a>;rel="ne\xt""#;
    assert_read(header, &[[1, 2, 0, 1]], &[[4, 7, 9, 14, 2, 1]]);
    let tables = accepted(header.as_bytes());
    assert_eq!(tables.search("next"), (0, 0));
    assert_eq!(tables.search(r"ne\xt"), (9, 0));
    assert_eq!(written(&tables).unwrap(), "<a>; rel=next");
}

#[test]
fn malformed_headers() {
    assert_malformed("<a>;rel=next;", 13);
    assert_malformed("<a> <b>", 4);
    assert_malformed("<a%4g>", 4);
    assert_malformed("<a>;rel=a/b", 9);
    assert_malformed("<a>;x=,<b>", 6);
    assert_malformed("<a>;t=\"b", 8);
}

#[test]
fn commas_that_part_nothing() {
    assert_read(r#"<a>;t="b,c""#, &[[1, 2, 0, 1]], &[[4, 5, 7, 10, 2, 0]]);
    assert_read("<a,b>", &[[1, 4, 0, 0]], &[]);
    assert_read(",<a>", &[[2, 3, 0, 0]], &[]);
}

#[test]
fn slips_met_elsewhere() {
    assert_read(
        "<a>;title=x;hreflang=de;TITLE=y;HrefLang=en;title*=z",
        &[[1, 2, 0, 4]],
        &[
            [4, 9, 10, 11, 1, 4],
            [12, 20, 21, 23, 1, 7],
            [32, 40, 41, 43, 1, 7],
            [44, 50, 51, 52, 1, 5],
        ],
    );
    assert_malformed("c\"", 0);
    assert_read("<a>;t=\"b,c\"", &[[1, 2, 0, 1]], &[[4, 5, 7, 10, 2, 0]]);
    assert_malformed("<a>;rel=x;rel=\"y", 16);
}
