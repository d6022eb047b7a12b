//! The elements that a picture is made of.

use crate::xml::escaped;

/// How many lengths a pixel is: a length is a whole number of tenths.
pub const PIXEL: u64 = 10;

pub fn text(x: u64, y: u64, style: &str, words: &str) -> String {
    let (x, y, words) = (pixels(x), pixels(y), escaped(words));
    format!("<text x=\"{x}\" y=\"{y}\" {style}>{words}</text>\n")
}

pub fn line(from: (u64, u64), to: (u64, u64), style: &str) -> String {
    let [x1, y1, x2, y2] = [from.0, from.1, to.0, to.1].map(pixels);
    format!("<line x1=\"{x1}\" y1=\"{y1}\" x2=\"{x2}\" y2=\"{y2}\" {style}/>\n")
}

pub fn dot(x: u64, y: u64, style: &str) -> String {
    let (x, y) = (pixels(x), pixels(y));
    format!("<circle cx=\"{x}\" cy=\"{y}\" {style}/>\n")
}

/// A length as a number of pixels.
pub fn pixels(length: u64) -> String {
    format!("{}.{}", length / PIXEL, length % PIXEL)
}
