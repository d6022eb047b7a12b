//! A picture of currents: a row for each contact, ticks from left to right.
//!
//! Lengths are whole tenths of a pixel, so that a picture is the same text on every machine. A
//! picture has no names, styles or scripts of its own, so that a page may hold any number of them.

mod axis;
mod element;
mod room;

use zimgurav::Word;

use crate::number::microamperes;
use crate::picture::Picture;
use crate::sheet::{Greatest, Sheet};
use crate::svg::axis::{tick_step, Scale};
use crate::svg::element::{dot, line, pixels, text, PIXEL};
use crate::svg::room::shortened;
use crate::xml::escaped;

const WIDTH: u64 = 1000 * PIXEL;

/// The left edge of the words.
const MARGIN: u64 = 20 * PIXEL;

/// Where tick 0 is.
const LEFT: u64 = 164 * PIXEL;

/// How far the last tick is from tick 0.
const PLOT_WIDTH: u64 = 546 * PIXEL;

/// Where the dots of the greatest currents are beside the rows.
const MARKS: u64 = 732 * PIXEL;

/// Where the longest number of them begins.
const MARKS_CURRENTS: u64 = 794 * PIXEL;

/// The room for a letter of it.
const MARKS_LETTER: u64 = 72 * PIXEL / 10;

/// The top of the first row.
const TOP: u64 = 120 * PIXEL;

/// From the bottom of a row to the top of the next.
const GAP: u64 = 18 * PIXEL;

/// The height of a row that a step of the scale has to have for its label.
const LABEL_HEIGHT: u64 = 18 * PIXEL;

/// The height of a picture that has no rows.
const EMPTY_HEIGHT: u64 = 110 * PIXEL;

/// From the bottom of the last row down to the first line of the setting.
const FOOT: u64 = 58 * PIXEL;

/// From a line of the setting down to the next, and from the last one to the bottom of the picture.
const SETTING_LINE: u64 = 16 * PIXEL;

/// From the middle of a line of words down to the line that they stand on.
const HALF_LINE: u64 = 4 * PIXEL;

/// The room for a title, in hundredths of its font's size.
const TITLE_ROOM: u64 = 100 * (WIDTH - 2 * MARGIN) / (17 * PIXEL);

/// The room for a caption, in hundredths of its font's size.
const CAPTION_ROOM: u64 = 100 * (WIDTH - 2 * MARGIN) / (12 * PIXEL);

const TITLE: &str = r##"font-size="17" font-weight="bold""##;
const PLAIN: &str = r##"font-size="12""##;
const CONTACT: &str = r##"font-size="12" font-weight="bold""##;
const SMALL: &str = r##"font-size="11" fill="#555555""##;
const SMALL_CENTRED: &str = r##"font-size="11" fill="#555555" text-anchor="middle""##;
const SMALL_LEFTWARD: &str = r##"font-size="11" fill="#555555" text-anchor="end""##;
const LEFTWARD: &str = r##"font-size="12" text-anchor="end""##;
const GRID: &str = r##"stroke="#e2e2e2" shape-rendering="crispEdges""##;
const BASE: &str = r##"stroke="#777777" shape-rendering="crispEdges""##;

/// A sheet and how it is shown.
struct Layer<'a> {
    sheet: &'a Sheet,
    name: &'static str,
    meaning: &'static str,
    /// How its area is drawn.
    area: &'static str,
    /// How the dots of its greatest currents are drawn.
    dot: &'static str,
}

impl<'a> Layer<'a> {
    fn ceiling(sheet: &'a Sheet) -> Self {
        Layer {
            sheet,
            name: "ceiling",
            meaning: "ceiling: no pattern draws more",
            area: r##"fill="#d55e00" fill-opacity="0.16" stroke="#d55e00" stroke-width="1.8" stroke-linejoin="round""##,
            dot: r##"r="5" fill="#ffffff" stroke="#d55e00" stroke-width="2""##,
        }
    }

    /// The pattern of a search, or of a simulation if it is alone.
    fn simulated(sheet: &'a Sheet, alone: bool) -> Self {
        Layer {
            sheet,
            name: "pattern",
            meaning: match alone {
                true => "current of the pattern",
                false => "simulated: the pattern that drops most of those found",
            },
            area: r##"fill="#0b4f80""##,
            dot: r##"r="3.6" fill="#0b4f80" stroke="#ffffff" stroke-width="1""##,
        }
    }
}

/// Where ticks and currents are in a picture.
struct Plot {
    /// The last tick at which current flows.
    quiet: u64,
    scale: Scale,
    /// Where the numbers of the greatest currents end.
    currents_end: u64,
    rows: u64,
    /// How many lines the setting has.
    setting_lines: u64,
    /// From the top of a row to the top of the next.
    pitch: u64,
}

impl Plot {
    fn new(picture: &Picture) -> Self {
        let greatest = picture.greatest().max(picture.reaching);
        let sheets = picture.ceiling.into_iter().chain(picture.simulated);
        let quiet = sheets.map(|sheet| sheet.quiet).max();
        let rows = picture.contacts.len() as u64;
        Plot {
            quiet: quiet.unwrap_or(0),
            scale: Scale::reaching(greatest),
            currents_end: MARKS_CURRENTS
                + MARKS_LETTER * microamperes(greatest).chars().count() as u64,
            rows,
            setting_lines: picture.setting.len() as u64,
            pitch: (640 * PIXEL / rows.max(1)).clamp(64 * PIXEL, 240 * PIXEL),
        }
    }

    /// The tick after the quiet tick, at which the axis ends: every current is 0 again.
    fn end(&self) -> u64 {
        self.quiet + 1
    }

    fn x(&self, tick: u64) -> u64 {
        LEFT + PLOT_WIDTH * tick / self.end()
    }

    fn bottom(&self, row: u64) -> u64 {
        TOP + self.pitch * (row + 1) - GAP
    }

    /// The middle of a row's height.
    fn middle(&self, row: u64) -> u64 {
        self.bottom(row) - (self.pitch - GAP) / 2
    }

    /// Where a current is. It is below 18 thousand million, so that its product with a height has no
    /// more than 64 bits.
    fn y(&self, row: u64, current: Word) -> u64 {
        self.bottom(row) - (self.pitch - GAP) * current / self.scale.top()
    }

    fn height(&self) -> u64 {
        match self.rows {
            0 => EMPTY_HEIGHT,
            _ => self.setting_line(self.setting_lines),
        }
    }

    /// Where a line of the setting stands, by its number from 0.
    fn setting_line(&self, line: u64) -> u64 {
        self.bottom(self.rows - 1) + FOOT + SETTING_LINE * line
    }
}

/// The picture as an SVG text.
pub fn draw(picture: &Picture) -> String {
    let alone = picture.ceiling.is_none();
    let ceiling = picture.ceiling.map(Layer::ceiling);
    let simulated = |sheet| Layer::simulated(sheet, alone);
    let simulated = picture.simulated.map(simulated);
    let layers: Vec<Layer> = ceiling.into_iter().chain(simulated).collect();
    let plot = Plot::new(picture);
    let mut svg = opening(picture, &layers, plot.height());
    svg += &heading(picture);
    if picture.contacts.is_empty() {
        let words = "The block has no gates: no contact draws current.";
        svg += &text(MARGIN, 84 * PIXEL, PLAIN, words);
    } else {
        svg += &legend(&layers);
        svg += &tick_axis(&plot, alone);
        svg += &foot(picture, &plot);
        svg += &rows(&picture.contacts, &plot, &layers);
    }
    svg + "</svg>\n"
}

/// The opening tag, what the picture says in words, and the white ground.
fn opening(picture: &Picture, layers: &[Layer], height: u64) -> String {
    let (width, height) = (WIDTH / PIXEL, height.div_ceil(PIXEL));
    let title = escaped(&picture.title);
    let description = escaped(&description(picture, layers));
    format!(
        r##"<svg xmlns="http://www.w3.org/2000/svg" role="img" width="{width}" height="{height}" viewBox="0 0 {width} {height}" font-family="sans-serif" fill="#1a1a1a">
<title>{title}</title>
<desc>{description}</desc>
<rect x="0" y="0" width="{width}" height="{height}" fill="#ffffff"/>
"##
    )
}

/// The title, and the caption below it.
fn heading(picture: &Picture) -> String {
    let title = shortened(&picture.title, TITLE_ROOM);
    let caption = shortened(&picture.caption, CAPTION_ROOM);
    text(MARGIN, 32 * PIXEL, TITLE, &title) + &text(MARGIN, 53 * PIXEL, PLAIN, &caption)
}

/// The caption and the greatest currents, for a reader who cannot see the picture.
fn description(picture: &Picture, layers: &[Layer]) -> String {
    let mut description = picture.caption.clone();
    for &contact in &picture.contacts {
        let greatest = |layer: &Layer| {
            let (current, tick) = mark(layer.sheet.greatest(contact));
            format!(" {} {current} {tick}", layer.name)
        };
        let greatest: Vec<String> = layers.iter().map(greatest).collect();
        description += &format!("\ncontact {contact}:{}", greatest.join(","));
    }
    description
}

/// A line that says what is what.
fn legend(layers: &[Layer]) -> String {
    let mut legend = String::new();
    for (at, layer) in layers.iter().enumerate() {
        let left = MARGIN + 262 * PIXEL * at as u64;
        legend += &format!(
            "<rect x=\"{}\" y=\"70.5\" width=\"24\" height=\"12\" {}/>\n",
            pixels(left),
            layer.area
        );
        legend += &text(left + 32 * PIXEL, 81 * PIXEL, PLAIN, layer.meaning);
    }
    legend
}

/// The labels of the ticks under the last row, and a line through all rows for each.
fn tick_axis(plot: &Plot, alone: bool) -> String {
    let bottom = plot.bottom(plot.rows - 1);
    let mut axis = text(
        LEFT - 22 * PIXEL,
        bottom + 18 * PIXEL,
        SMALL_LEFTWARD,
        "tick",
    );
    let step = tick_step(plot.end());
    for tick in (0..=plot.end()).step_by(step as usize) {
        let x = plot.x(tick);
        axis += &line((x, TOP), (x, bottom + 5 * PIXEL), GRID);
        axis += &text(x, bottom + 18 * PIXEL, SMALL_CENTRED, &tick.to_string());
    }
    let who = match alone {
        true => "The pattern draws no current",
        false => "No pattern draws current",
    };
    let words = match plot.quiet {
        0 => format!("{who}."),
        quiet => format!("{who} after tick {quiet}."),
    };
    axis + &text(LEFT, bottom + 38 * PIXEL, SMALL, &words)
}

/// The values that the call was made with, under all else.
fn foot(picture: &Picture, plot: &Plot) -> String {
    let lines = (0..).zip(&picture.setting).map(|(number, line)| {
        let line = shortened(line, CAPTION_ROOM);
        text(MARGIN, plot.setting_line(number), SMALL, &line)
    });
    lines.collect()
}

/// The rows, and above them what the numbers beside them are.
fn rows(contacts: &[usize], plot: &Plot, layers: &[Layer]) -> String {
    let mut rows = text(
        MARKS - 5 * PIXEL,
        TOP - 12 * PIXEL,
        SMALL,
        "greatest current",
    );
    for (row, &contact) in (0..).zip(contacts) {
        let name = format!("contact {contact}");
        rows += &text(MARGIN, plot.middle(row) + HALF_LINE, CONTACT, &name);
        rows += &current_axis(plot, row);
        rows += &areas(plot, row, contact, layers);
        rows += &marks(plot, row, contact, layers);
    }
    rows
}

/// The labels of the currents at the left of a row, and a line across it for each step.
fn current_axis(plot: &Plot, row: u64) -> String {
    let scale = &plot.scale;
    let labelled = (plot.pitch - GAP) / scale.steps >= LABEL_HEIGHT;
    let mut axis = String::new();
    for step in (0..=scale.steps).rev() {
        let y = plot.y(row, step * scale.step);
        let kind = if step == 0 { BASE } else { GRID };
        axis += &line((LEFT, y), (LEFT + PLOT_WIDTH, y), kind);
        if labelled || step == 0 || step == scale.steps {
            let label = scale.label(step);
            axis += &text(LEFT - 8 * PIXEL, y + HALF_LINE, SMALL_LEFTWARD, &label);
        }
    }
    axis
}

/// The currents of a contact, the ceiling behind the simulated ones.
fn areas(plot: &Plot, row: u64, contact: usize, layers: &[Layer]) -> String {
    let area = |layer: &Layer| {
        let path = area(plot, row, layer.sheet.row(contact));
        format!("<path d=\"{path}\" {}/>\n", layer.area)
    };
    layers.iter().map(area).collect()
}

/// The path over the currents of a row, from the tick before each stretch of them to the tick after.
fn area(plot: &Plot, row: u64, currents: &[Word]) -> String {
    let mut path = String::new();
    let mut before = 0;
    for (tick, &current) in (0..=plot.end()).zip(currents) {
        if before == 0 && current > 0 {
            let start = plot.x(tick.saturating_sub(1));
            path += &format!("M{} {}", pixels(start), pixels(plot.bottom(row)));
        }
        if before > 0 || current > 0 {
            let (x, y) = (plot.x(tick), plot.y(row, current));
            path += &format!("L{} {}", pixels(x), pixels(y));
        }
        before = current;
    }
    path
}

/// A dot at the greatest current of each sheet, and its number beside the row.
fn marks(plot: &Plot, row: u64, contact: usize, layers: &[Layer]) -> String {
    let first = plot.middle(row) + 9 * PIXEL - 9 * PIXEL * layers.len() as u64;
    let mut marks = String::new();
    for (at, layer) in (0..).zip(layers) {
        let greatest = layer.sheet.greatest(contact);
        if greatest.current > 0 {
            let (x, y) = (plot.x(greatest.tick as u64), plot.y(row, greatest.current));
            marks += &dot(x, y, layer.dot);
        }
        let y = first + 18 * PIXEL * at;
        let (current, tick) = mark(greatest);
        marks += &dot(MARKS, y, layer.dot);
        marks += &text(MARKS + 10 * PIXEL, y + HALF_LINE, PLAIN, layer.name);
        marks += &text(plot.currents_end, y + HALF_LINE, LEFTWARD, &current);
        marks += &text(plot.currents_end + 4 * PIXEL, y + HALF_LINE, PLAIN, &tick);
    }
    marks
}

/// A greatest current in words: how much, and when.
fn mark(greatest: Greatest) -> (String, String) {
    let tick = match greatest.current {
        0 => "at all ticks".to_string(),
        _ => format!("at tick {}", greatest.tick),
    };
    (microamperes(greatest.current), tick)
}

#[cfg(test)]
#[path = "../tests/common/markup.rs"]
mod markup;

#[cfg(test)]
mod tests {
    use super::markup::well_formed;
    use super::*;
    use zimgurav::{CONTACTS, ROW_TICKS};

    /// No word of a sheet is greater: 1,023 gates with a pulse of the greatest peak at each of 255 ticks.
    const GREATEST_WORD: Word = 1_023 * 65_535 * 255;

    /// The greatest quiet tick.
    const GREATEST_QUIET: u64 = 507;

    /// A sheet of these currents, by contact and tick.
    fn sheet(quiet: u64, currents: &[(usize, usize, Word)]) -> Sheet {
        let mut words = Sheet::lent();
        for &(contact, tick, current) in currents {
            words[ROW_TICKS * contact + tick] = current;
        }
        Sheet::new(words, quiet)
    }

    fn ceiling() -> Sheet {
        sheet(3, &[(0, 1, 400), (0, 2, 640), (0, 3, 640), (5, 3, 80)])
    }

    fn simulated() -> Sheet {
        sheet(2, &[(0, 1, 320), (0, 2, 160)])
    }

    /// The greatest word at every tick of every row.
    fn largest() -> Sheet {
        let mut words = Sheet::lent();
        for row in words.chunks_mut(ROW_TICKS) {
            row[..=GREATEST_QUIET as usize].fill(GREATEST_WORD);
        }
        Sheet::new(words, GREATEST_QUIET)
    }

    fn picture<'a>(
        contacts: &[usize],
        ceiling: Option<&'a Sheet>,
        simulated: Option<&'a Sheet>,
    ) -> Picture<'a> {
        Picture {
            title: "Search of a.blk".to_string(),
            caption: "U 720, L 320".to_string(),
            setting: vec!["one bus node".to_string()],
            contacts: contacts.to_vec(),
            ceiling,
            simulated,
            reaching: 0,
        }
    }

    fn drawn(contacts: &[usize], ceiling: Option<&Sheet>, simulated: Option<&Sheet>) -> String {
        let svg = draw(&picture(contacts, ceiling, simulated));
        assert_eq!(well_formed(&svg), Ok(()));
        svg
    }

    /// The texts of the picture, in its order.
    fn words(svg: &str) -> Vec<&str> {
        let texts = svg.lines().filter_map(|line| {
            let text = line.strip_prefix("<text ")?.strip_suffix("</text>")?;
            text.split_once('>')
        });
        texts.map(|(_, words)| words).collect()
    }

    /// Whether the picture has these texts, one after the other.
    fn has_words(svg: &str, wanted: &[&str]) -> bool {
        words(svg).windows(wanted.len()).any(|some| some == wanted)
    }

    /// The points of all paths, in tenths of pixels.
    fn points(svg: &str) -> Vec<(u64, u64)> {
        let paths = svg
            .lines()
            .filter_map(|line| line.strip_prefix("<path d=\"")?.split_once('"'));
        let points = paths.flat_map(|(path, _)| path.split(['M', 'L']).skip(1));
        let length = |pixels: &str| pixels.replace('.', "").parse().unwrap();
        points
            .map(|point| point.split_once(' ').unwrap())
            .map(|(x, y)| (length(x), length(y)))
            .collect()
    }

    /// The axis is from tick 0 at 164 to tick 4 at 710; the scale of the first row is from 0 at 342
    /// up to 800 at 120, and that of the second 240 further down.
    #[test]
    fn a_search_has_both_layers_where_they_should_be() {
        let (ceiling, simulated) = (ceiling(), simulated());
        let svg = drawn(&[0, 5], Some(&ceiling), Some(&simulated));
        let paths: Vec<&str> = svg
            .lines()
            .filter(|line| line.starts_with("<path "))
            .collect();
        let (light, dark) = (
            Layer::ceiling(&ceiling).area,
            Layer::simulated(&simulated, false).area,
        );
        assert_eq!(
            paths,
            [
                format!("<path d=\"M164.0 342.0L300.5 231.0L437.0 164.4L573.5 164.4L710.0 342.0\" {light}/>"),
                format!("<path d=\"M164.0 342.0L300.5 253.2L437.0 297.6L573.5 342.0\" {dark}/>"),
                format!("<path d=\"M437.0 582.0L573.5 559.8L710.0 582.0\" {light}/>"),
                format!("<path d=\"\" {dark}/>"),
            ]
        );
    }

    #[test]
    fn the_greatest_currents_are_marked() {
        let svg = drawn(&[0, 5], Some(&ceiling()), Some(&simulated()));
        for wanted in [
            ["ceiling", "640 µA", "at tick 2"],
            ["pattern", "320 µA", "at tick 1"],
            ["ceiling", "80 µA", "at tick 3"],
            ["pattern", "0 µA", "at all ticks"],
        ] {
            assert!(has_words(&svg, &wanted), "{wanted:?}");
        }
        assert!(svg.contains("\ncontact 5: ceiling 80 µA at tick 3, pattern 0 µA at all ticks<"));
    }

    #[test]
    fn a_dot_is_at_each_greatest_current() {
        let (ceiling, simulated) = (ceiling(), simulated());
        let svg = drawn(&[0, 5], Some(&ceiling), Some(&simulated));
        let (ring, spot) = (
            Layer::ceiling(&ceiling).dot,
            Layer::simulated(&simulated, false).dot,
        );
        for (x, y, kind) in [(4370, 1644, ring), (3005, 2532, spot), (5735, 5598, ring)] {
            assert!(svg.contains(&dot(x, y, kind)), "({x}, {y})");
        }
        // Three at currents, and one beside each row for each sheet.
        assert_eq!(svg.matches("<circle ").count(), 3 + 4);
    }

    /// A picture beside others has their scale.
    #[test]
    fn a_scale_reaches_what_it_has_to() {
        let ceiling = ceiling();
        let svg = draw(&Picture {
            reaching: 1_400,
            ..picture(&[0], Some(&ceiling), None)
        });
        assert!(has_words(&svg, &["1,500 µA", "1,000 µA", "500 µA", "0"]));
        assert!(has_words(&svg, &["one bus node"]));
    }

    /// The lines of a setting stand one below the other, above the picture's bottom, and none is broader than it.
    #[test]
    fn a_setting_has_lines() {
        let ceiling = ceiling();
        let broad = format!("split order: cone ({})", ["abcdefgh"; 64].join(" "));
        let svg = draw(&Picture {
            setting: vec!["one bus node".to_string(), broad.clone()],
            ..picture(&[0], Some(&ceiling), None)
        });
        let line = |y: &str| {
            let beginning = format!("<text x=\"20.0\" y=\"{y}\" {SMALL}>");
            let line = svg.lines().find_map(|line| line.strip_prefix(&beginning));
            line.expect("a line").replace("</text>", "")
        };
        assert_eq!(line("400.0"), "one bus node");
        assert_eq!(line("416.0"), shortened(&broad, CAPTION_ROOM));
        assert!(line("416.0").starts_with("split order: cone (abcdefgh "));
        assert!(line("416.0").ends_with(" abcdefgh)"));
        assert!(svg.contains("height=\"432\""));
    }

    #[test]
    fn axes_have_labels() {
        let svg = drawn(&[0, 5], Some(&ceiling()), Some(&simulated()));
        assert!(has_words(&svg, &["tick", "0", "1", "2", "3", "4"]));
        let row = ["800 µA", "600 µA", "400 µA", "200 µA", "0"];
        for contact in ["contact 0", "contact 5"] {
            assert!(has_words(&svg, &[&[contact], &row[..]].concat()));
        }
        assert!(has_words(&svg, &["No pattern draws current after tick 3."]));
    }

    #[test]
    fn a_legend_says_what_is_what() {
        let ceiling_words = "ceiling: no pattern draws more";
        let pattern_words = "simulated: the pattern that drops most of those found";
        let alone_words = "current of the pattern";
        let (ceiling, simulated) = (ceiling(), simulated());
        let legend = |ceiling, simulated| {
            let svg = drawn(&[0], ceiling, simulated);
            [ceiling_words, pattern_words, alone_words].map(|line| has_words(&svg, &[line]))
        };
        assert_eq!(
            legend(Some(&ceiling), Some(&simulated)),
            [true, true, false]
        );
        assert_eq!(legend(Some(&ceiling), None), [true, false, false]);
        assert_eq!(legend(None, Some(&simulated)), [false, false, true]);
    }

    #[test]
    fn a_simulation_speaks_of_its_pattern_only() {
        let svg = drawn(&[0], None, Some(&simulated()));
        assert!(!svg.contains("ceiling"));
        assert!(has_words(&svg, &["pattern", "320 µA", "at tick 1"]));
        assert!(has_words(
            &svg,
            &["The pattern draws no current after tick 2."]
        ));
    }

    #[test]
    fn stretches_of_current_are_apart() {
        let currents = sheet(5, &[(0, 0, 4), (0, 4, 2), (0, 5, 4)]);
        let plot = Plot::new(&picture(&[0], Some(&currents), None));
        assert_eq!(
            area(&plot, 0, currents.row(0)),
            "M164.0 342.0L164.0 120.0L255.0 342.0M437.0 342.0L528.0 231.0L619.0 120.0L710.0 342.0"
        );
    }

    #[test]
    fn a_block_without_gates_has_a_line_that_says_so() {
        let empty = sheet(0, &[]);
        let svg = drawn(&[], Some(&empty), Some(&empty));
        let line = "The block has no gates: no contact draws current.";
        assert_eq!(words(&svg), ["Search of a.blk", "U 720, L 320", line]);
    }

    #[test]
    fn an_empty_sheet_has_axes() {
        let svg = drawn(&[3], Some(&sheet(0, &[])), None);
        assert_eq!(points(&svg), []);
        assert!(has_words(
            &svg,
            &["tick", "0", "1", "No pattern draws current."]
        ));
        assert!(has_words(&svg, &["contact 3", "1 µA", "0"]));
        assert!(has_words(&svg, &["ceiling", "0 µA", "at all ticks"]));
    }

    #[test]
    fn the_largest_block_fits() {
        let contacts: Vec<usize> = (0..CONTACTS).collect();
        let largest = largest();
        let svg = drawn(&contacts, Some(&largest), Some(&largest));
        assert!(has_words(&svg, &["contact 15", "20,000 A", "0"]));
        assert!(has_words(&svg, &["17,095,787,775 µA", "at tick 0"]));
        let points = points(&svg);
        // A point for each tick, one to start from and one after the quiet tick.
        assert_eq!(points.len(), 2 * CONTACTS * (GREATEST_QUIET as usize + 3));
        let plot = Plot::new(&picture(&contacts, Some(&largest), None));
        let bottom = plot.bottom(15);
        for (x, y) in points {
            assert!((LEFT..=LEFT + PLOT_WIDTH).contains(&x), "{x}");
            assert!((TOP..=bottom).contains(&y), "{y}");
        }
        // The words `at tick 507` take 70 pixels of a broad font.
        assert!(plot.currents_end + 74 * PIXEL <= WIDTH);
    }

    #[test]
    fn names_of_files_are_escaped() {
        let ceiling = ceiling();
        let svg = draw(&Picture {
            title: "Search of <b> & \"c\u{1}\".blk".to_string(),
            caption: "</desc>".to_string(),
            setting: vec!["1 bus node of <b>".to_string()],
            ..picture(&[0], Some(&ceiling), None)
        });
        assert_eq!(well_formed(&svg), Ok(()));
        let title = "Search of &lt;b&gt; &amp; &quot;c\u{fffd}&quot;.blk";
        assert_eq!(words(&svg)[..2], [title, "&lt;/desc&gt;"]);
        assert!(svg.contains(&format!("<title>{title}</title>")));
    }

    #[test]
    fn a_page_can_hold_pictures() {
        let svg = drawn(&[0], Some(&ceiling()), Some(&simulated()));
        for foreign in [
            " id=", "class=", "href", "url(", "<script", "<style", "<?xml", "@",
        ] {
            assert!(!svg.contains(foreign), "{foreign}");
        }
        assert_eq!(svg.matches("http").count(), 1, "the name of SVG alone");
    }
}
