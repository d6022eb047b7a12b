//! The checker of SVG and HTML texts refuses what it should.

use crate::markup::well_formed;

#[test]
fn well_formed_texts_are_taken() {
    for text in [
        "<a/>",
        "<a></a>\n",
        "<a b=\"c\" d-e=\"&quot;&amp;\"><f>g &lt; h</f>\n<i/></a>",
        "<!DOCTYPE html>\n<html>\n<meta charset=\"utf-8\">\n<p>a<br>b</p>\n</html>\n",
    ] {
        assert_eq!(well_formed(text), Ok(()), "{text}");
    }
}

#[test]
fn others_are_refused() {
    for text in [
        "",
        "a",
        "a<b/>",
        "<a>",
        "<a",
        "</a>",
        "<a></b>",
        "<a><b></a></b>",
        "<a/><b/>",
        "<a></a>b",
        "<a b/>",
        "<a b=c/>",
        "<a b='c'/>",
        "<a b=\"c/>",
        "<a b=\"c\"d=\"e\"/>",
        "<a b=\"<\"/>",
        "<a b=\">\"/>",
        "<a b=\"c\" b=\"d\"/>",
        "<a>&</a>",
        "<a>&nbsp;</a>",
        "<a>b & c; d</a>",
        "<a>></a>",
        "<a>\u{1}</a>",
        "<a>\u{ffff}</a>",
        "<1/>",
        "< a/>",
        "<a><br></a>",
    ] {
        assert!(well_formed(text).is_err(), "{text}");
    }
}
