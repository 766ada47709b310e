//! A picture of the pages, one below the other: a mark for each character at its place, and the rules.

mod hover;
mod small;

use crate::codes::Codes;
use crate::fonts::Fonts;
use crate::marks::{Mark, Page, Rule, Size, INCH, QUANTUM};
use crate::text::{counted, grouped, inches_of_quanta};
use crate::words::REACH;
use std::io::{self, Write};
use std::ops::{Range, RangeInclusive};

const HALF_INCH: i64 = INCH / 2;
/// The width of a page, if nothing stands farther out.
const PAGE_WIDTH: i64 = 3_240;
/// Room for a legend with one row of kinds above all pages, for each row more, and the kinds in a row; and room
/// around each page, for its rulers and its number.
const LEGEND: i64 = 500;
const LEGEND_ROW: i64 = 110;
const KINDS_IN_ROW: usize = 3;
const LEFT: i64 = 240;
const TOP: i64 = 200;
const RIGHT: i64 = 160;
const BOTTOM: i64 = 120;
/// The greatest height and width of a picture, in inches of 96 pixels: many programs show 32,767 pixels and no
/// more.
const MOST_INCHES: f64 = 341.0;
/// The most ticks of a ruler.
const MOST_TICKS: i64 = 10_000;
/// A path is ended when it has this many bytes: many programs read no attribute of a megabyte.
const LONG_PATH: usize = 60_000;

/// How the marks of a kind look: they differ by colour, in grey too, and by shape.
struct Style<'a> {
    colour: &'a str,
    /// How far the head of a mark stands to the right of its foot, in sixteenths of the mark's width; it is
    /// so much narrower.
    lean: i64,
}

/// The marks of the fonts that are told apart, and of all others; and rules.
const FONT_STYLES: [Style; 8] = [
    Style { colour: "#003a70", lean: 0 },
    Style { colour: "#d55e00", lean: 6 },
    Style { colour: "#009e73", lean: 0 },
    Style { colour: "#cc79a7", lean: 6 },
    Style { colour: "#56b4e9", lean: 0 },
    Style { colour: "#b58900", lean: 6 },
    Style { colour: "#6a3d9a", lean: 0 },
    Style { colour: "#7f3f00", lean: 6 },
];
const OTHER_STYLE: Style = Style { colour: "#bcbcbc", lean: 0 };
const RULE_LOOK: &str = "fill=\"black\"";

/// A mark of this style as a piece of a path: from the foot's left end, on the baseline.
fn mark(style: &Style, x: i64, y: i64, height: i64) -> String {
    let lean = style.lean * height / 32;
    let foot = height / 2 - lean;
    format!("M{x} {y}h{foot}l{lean}-{height}h-{foot}z")
}

/// The height of a mark; it is half as wide.
fn mark_height(size: Size) -> i64 {
    match size {
        Size::Blank => 8,
        Size::Single => 32,
        Size::Double => 64,
    }
}

/// A rule as a piece of a path.
fn rule(rule: &Rule) -> String {
    let Rule { left, right, top, bottom } = rule;
    format!("M{left} {bottom}H{right}V{top}H{left}z")
}

/// The pages that can be drawn, and what the legend says of them.
pub struct Source {
    pub name: String,
    /// What they come from, in words.
    pub origin: String,
    pub fonts: Fonts,
    pub pages: Vec<Page>,
}

/// Some pages, or a part of one, with a legend.
pub struct Picture<'a> {
    source: &'a Source,
    /// Which characters the codes are, if that is known.
    codes: Option<&'a Codes>,
    /// The first page that is shown, counted from 1.
    first: usize,
    views: Vec<View<'a>>,
    part: Option<RangeInclusive<i32>>,
    /// The left and the right edge of all pages.
    sides: Range<i64>,
}

/// A page as it is shown: what stands at some heights, the marks on another, and its upper and lower edge.
struct View<'a> {
    page: &'a Page,
    heights: RangeInclusive<i64>,
    overstruck: Vec<Mark>,
    top: i64,
    bottom: i64,
}

impl View<'_> {
    /// A part of a page, given in quanta, or all of it: to whole half inches, and at least one below the lowest
    /// baseline.
    fn new<'a>(page: &'a Page, part: Option<&RangeInclusive<i32>>) -> View<'a> {
        let heights = match part {
            Some(part) => QUANTUM * i64::from(*part.start())..=QUANTUM * i64::from(*part.end()),
            None => i64::MIN..=i64::MAX,
        };
        let mut view = View { page, heights, overstruck: vec![], top: 0, bottom: 0 };
        (view.top, view.bottom) = match part {
            Some(_) => (*view.heights.start(), view.heights.end() + HALF_INCH),
            None => view.edges(),
        };
        view.overstruck = overstruck(view.marks().copied().collect());
        view
    }

    fn marks(&self) -> impl Iterator<Item = &Mark> {
        self.page.marks.iter().filter(|mark| self.heights.contains(&mark.y))
    }

    fn rules(&self) -> impl Iterator<Item = &Rule> {
        let is_shown = |rule: &&Rule| rule.bottom >= *self.heights.start() && rule.top <= *self.heights.end();
        self.page.rules.iter().filter(is_shown)
    }

    /// The upper and the lower edge of a whole page.
    fn edges(&self) -> (i64, i64) {
        let highest = self.marks().map(|mark| mark.y).chain(self.rules().map(|rule| rule.top)).min();
        let lowest = self.marks().map(|mark| mark.y).chain(self.rules().map(|rule| rule.bottom)).max();
        let top = highest.unwrap_or(0).min(0).div_euclid(HALF_INCH) * HALF_INCH;
        (top, (lowest.unwrap_or(0).max(0) / HALF_INCH + 2) * HALF_INCH)
    }

    /// With the room around it.
    fn height(&self) -> i64 {
        TOP + self.bottom - self.top + BOTTOM
    }
}

/// The marks of a page that stand on another.
fn overstruck(mut marks: Vec<Mark>) -> Vec<Mark> {
    marks.sort_by_key(|mark| (mark.y, mark.x));
    let is_struck = |pair: &&[Mark]| pair[0].y == pair[1].y && pair[1].x - pair[0].x < REACH;
    marks.windows(2).filter(is_struck).map(|pair| pair[1]).collect()
}

/// The left and the right edge of pages that are shown: to whole half inches, where something stands beyond the
/// width of a page, or more than half an inch before it.
fn sides(views: &[View]) -> Range<i64> {
    let lefts = |view: &View| view.marks().map(|mark| mark.x).chain(view.rules().map(|rule| rule.left)).min();
    let rights =
        |view: &View| view.marks().map(|mark| mark.x).chain(view.rules().map(|rule| rule.right)).max();
    let left = views.iter().filter_map(lefts).min().filter(|left| *left < -HALF_INCH).unwrap_or(0);
    let right = views.iter().filter_map(rights).max().unwrap_or(0).max(0);
    left.div_euclid(HALF_INCH) * HALF_INCH..PAGE_WIDTH.max((right / HALF_INCH + 1) * HALF_INCH)
}

impl Picture<'_> {
    pub fn new<'a>(
        source: &'a Source,
        codes: Option<&'a Codes>,
        shown: Range<usize>,
        part: Option<RangeInclusive<i32>>,
    ) -> Picture<'a> {
        let first = shown.start + 1;
        let views: Vec<View> =
            source.pages[shown].iter().map(|page| View::new(page, part.as_ref())).collect();
        let sides = sides(&views);
        Picture { source, codes, first, views, part, sides }
    }

    /// The number of characters drawn.
    pub fn count(&self) -> usize {
        self.marks().count()
    }

    /// The percentage of its full size, if it is drawn smaller.
    pub fn scaled_to(&self) -> Option<f64> {
        Some(100.0 * self.scale()).filter(|percent| *percent < 100.0)
    }

    /// Writes the picture as SVG.
    pub fn draw(&self, out: &mut dyn Write) -> io::Result<()> {
        self.open(out)?;
        self.draw_legend(out)?;
        let mut top = 0;
        for (position, view) in (self.first..).zip(&self.views) {
            self.draw_page(out, view, position, top)?;
            top += view.height();
        }
        writeln!(out, "</svg>")
    }

    fn marks(&self) -> impl Iterator<Item = &Mark> {
        self.views.iter().flat_map(View::marks)
    }

    /// In units, with the legend.
    fn height(&self) -> i64 {
        self.legend() + self.views.iter().map(View::height).sum::<i64>()
    }

    /// The height of the legend.
    fn legend(&self) -> i64 {
        LEGEND + LEGEND_ROW * (self.others() / KINDS_IN_ROW) as i64
    }

    /// In units, with the room on both sides.
    fn width(&self) -> i64 {
        LEFT + self.sides.end - self.sides.start + RIGHT
    }

    fn scale(&self) -> f64 {
        (MOST_INCHES * INCH as f64 / self.height().max(self.width()) as f64).min(1.0)
    }

    /// The start of the picture: its size and a white ground. The first page starts at 0, below the legend.
    fn open(&self, out: &mut dyn Write) -> io::Result<()> {
        let (width, height, legend) = (self.width(), self.height(), self.legend());
        let inches = |units: i64| (self.scale() * units as f64 / INCH as f64).max(0.01);
        write!(
            out,
            "<svg xmlns=\"http://www.w3.org/2000/svg\" width=\"{:.2}in\" height=\"{:.2}in\" \
             viewBox=\"0 -{legend} {width} {height}\" font-family=\"sans-serif\" font-size=\"72\">\n\
             <rect y=\"-{legend}\" width=\"{width}\" height=\"{height}\" fill=\"#ffffff\"/>\n",
            inches(width),
            inches(height),
        )
    }

    /// The name with what is shown, a line for each kind of marks, and what else there is to know.
    fn draw_legend(&self, out: &mut dyn Write) -> io::Result<()> {
        let title = self.title();
        // Smaller where it would be too long.
        let size = (96 * 60 / title.chars().count()).clamp(24, 96);
        let title = escaped(&title);
        writeln!(out, "<title>{title}</title>")?;
        writeln!(
            out,
            "<text x=\"{LEFT}\" y=\"{}\" font-size=\"{size}\">{title}</text>",
            140 - self.legend()
        )?;
        for (kind, (colour, label, count)) in self.kinds().enumerate() {
            self.draw_kind(out, kind, &colour, &format!("{label}: {}", grouped(count)))?;
        }
        let notes = self.notes();
        writeln!(out, "<text x=\"{LEFT}\" y=\"-80\" fill=\"#606060\" font-size=\"66\">{notes}</text>")
    }

    /// Each kind of marks: its colour, its label, and how many there are.
    pub fn kinds(&self) -> impl Iterator<Item = (String, String, usize)> + '_ {
        let mut counts = vec![0; self.others() + 1];
        self.marks().for_each(|mark| counts[self.kind_of(mark)] += 1);
        let kind = |(kind, count)| (self.style(kind).colour.to_string(), self.label(kind), count);
        counts.into_iter().enumerate().map(kind)
    }

    /// A mark of a kind with its label.
    fn draw_kind(&self, out: &mut dyn Write, kind: usize, colour: &str, label: &str) -> io::Result<()> {
        let (row, place) = ((kind / KINDS_IN_ROW) as i64, (kind % KINDS_IN_ROW) as i64);
        let (x, y) = (LEFT + 1_180 * place, 300 + LEGEND_ROW * row - self.legend());
        // Smaller where it would be too long.
        let size = (72 * 24 / label.chars().count()).clamp(20, 72);
        writeln!(
            out,
            "<path fill=\"{colour}\" d=\"{}\"/>\n<text x=\"{}\" y=\"{}\" font-size=\"{size}\">{}</text>",
            mark(&self.style(kind), x, y, 64),
            x + 80,
            y - 6,
            escaped(label),
        )
    }

    /// What the pages come from, and how many marks and rules look otherwise.
    fn notes(&self) -> String {
        let of_size = |size| self.marks().filter(|mark| mark.size == size).count();
        let rows = [
            ("Double sizes, with larger marks", of_size(Size::Double)),
            ("Blanks, with smaller marks", of_size(Size::Blank)),
            ("Rules", self.views.iter().map(|view| view.rules().count()).sum()),
        ];
        let mut notes = format!("{}. ", self.source.origin);
        for (what, count) in rows.into_iter().filter(|(_, count)| *count > 0) {
            notes += &format!("{what}: {}. ", grouped(count));
        }
        let overstruck: usize = self.views.iter().map(|view| view.overstruck.len()).sum();
        notes + &format!("Overstruck, framed: {}. Rulers in inches.", grouped(overstruck))
    }

    fn title(&self) -> String {
        let mut title = format!("{}: {}", self.source.name, counted(self.count(), "character"));
        let all = self.source.pages.len();
        if self.views.len() > 1 {
            title += &format!(", {}", counted(self.views.len(), "page"));
        } else if all > 1 {
            title += &format!(", page {} of {}", grouped(self.first), grouped(all));
        }
        if let Some(heights) = &self.part {
            let [from, to] = [heights.start(), heights.end()].map(|height| grouped(*height as usize));
            let [top, bottom] = [heights.start(), heights.end()].map(|height| inches_of_quanta(*height));
            title += &format!(", heights {from} to {to} ({top:.2} to {bottom:.2} inches)");
        }
        title
    }

    /// A kind of marks: which of the fonts told apart, or one more for all others.
    fn kind_of(&self, mark: &Mark) -> usize {
        mark.font.and_then(|font| self.source.fonts.position(font)).unwrap_or(self.others())
    }

    fn others(&self) -> usize {
        self.source.fonts.iter().count()
    }

    fn label(&self, kind: usize) -> String {
        self.source.fonts.iter().nth(kind).map_or("other fonts".into(), |font| font.label())
    }

    /// How marks of a kind look: in the colour that was chosen for its font, if one was.
    fn style(&self, kind: usize) -> Style<'_> {
        match (FONT_STYLES.get(kind), self.source.fonts.iter().nth(kind)) {
            (Some(usual), Some(font)) => {
                Style { colour: font.colour.as_deref().unwrap_or(usual.colour), lean: usual.lean }
            }
            _ => OTHER_STYLE,
        }
    }

    /// A page's edges, rulers, marks and number, as a picture of its own that starts at `top`.
    fn draw_page(&self, out: &mut dyn Write, view: &View, position: usize, top: i64) -> io::Result<()> {
        let (width, height, depth) = (self.width(), view.height(), view.bottom - view.top);
        let Range { start: left, end: right } = self.sides;
        write!(
            out,
            "<svg y=\"{top}\" width=\"{width}\" height=\"{height}\" viewBox=\"{} {} {width} {height}\">\n\
             <rect x=\"{left}\" y=\"{}\" width=\"{}\" height=\"{}\" fill=\"none\" stroke=\"#c8c8c8\" \
             stroke-width=\"4\"/>\n",
            left - LEFT,
            view.top - TOP,
            view.top - 80,
            right - left,
            depth + 80,
        )?;
        draw_rulers(out, view, &self.sides)?;
        writeln!(
            out,
            "<text x=\"{right}\" y=\"{}\" fill=\"#606060\" text-anchor=\"end\" font-size=\"60\">{}</text>",
            view.bottom + 80,
            page_label(view.page, position),
        )?;
        self.draw_marks(out, view)?;
        writeln!(out, "</svg>")
    }

    /// Rules, and marks over them: the others first, and slanted marks over upright ones, so that both are seen.
    fn draw_marks(&self, out: &mut dyn Write, view: &View) -> io::Result<()> {
        draw_paths(out, RULE_LOOK, view.rules().map(rule))?;
        for kind in std::iter::once(self.others()).chain(0..self.others()) {
            let style = self.style(kind);
            let mut marks: Vec<Mark> =
                view.marks().filter(|mark| self.kind_of(mark) == kind).copied().collect();
            for word in hover::words(&mut marks) {
                let path: String =
                    word.iter().map(|it| mark(&style, it.x, it.y, mark_height(it.size))).collect();
                let title = hover::title(word, &self.source.fonts, self.codes);
                writeln!(out, "<path fill=\"{}\" d=\"{path}\"><title>{title}</title></path>", style.colour)?;
            }
        }
        let frames = view.overstruck.iter().map(frame);
        draw_paths(out, "fill=\"none\" stroke=\"#000000\" stroke-width=\"5\"", frames)
    }
}

/// A page by its position, counted from 1, and by its number where that is another.
fn page_label(page: &Page, position: usize) -> String {
    if page.number == position as i64 {
        format!("page {position}")
    } else {
        format!("page {position}, numbered {}", page.number)
    }
}

/// A frame around a mark as a piece of a path.
fn frame(mark: &Mark) -> String {
    let height = mark_height(mark.size);
    let (x, y) = (mark.x - 5, mark.y + 5);
    let (across, up) = (height / 2 + 10, height + 10);
    format!("M{x} {y}h{across}v-{up}h-{across}z")
}

/// Draws pieces of paths, as many to a path as it may hold.
fn draw_paths(out: &mut dyn Write, look: &str, pieces: impl Iterator<Item = String>) -> io::Result<()> {
    let mut path = String::new();
    let mut pieces = pieces.peekable();
    while let Some(piece) = pieces.next() {
        path.push_str(&piece);
        if path.len() > LONG_PATH || pieces.peek().is_none() {
            writeln!(out, "<path {look} d=\"{path}\"/>")?;
            path.clear();
        }
    }
    Ok(())
}

/// Inches along the top of a page and down its left side.
fn draw_rulers(out: &mut dyn Write, view: &View, sides: &Range<i64>) -> io::Result<()> {
    writeln!(out, "<g fill=\"#606060\" text-anchor=\"middle\" font-size=\"60\">")?;
    let tick = |out: &mut dyn Write, x, y, way| {
        write!(out, "<path stroke=\"#c8c8c8\" stroke-width=\"4\" d=\"M{x} {y}{way}\"/>")
    };
    for inch in inches(sides.start, sides.end) {
        let x = inch * INCH;
        tick(out, x, view.top - 80, "v-32")?;
        writeln!(out, "<text x=\"{x}\" y=\"{}\">{inch}</text>", view.top - 130)?;
    }
    for inch in inches(view.top, view.bottom) {
        let y = inch * INCH;
        tick(out, sides.start, y, "h-32")?;
        writeln!(out, "<text x=\"{}\" y=\"{}\">{inch}</text>", sides.start - 110, y + 20)?;
    }
    writeln!(out, "</g>")
}

/// The whole inches from one place to another; of very many only each tenth, hundredth and so on.
fn inches(from: i64, to: i64) -> impl Iterator<Item = i64> {
    let (first, last) = ((from + INCH - 1).div_euclid(INCH), to.div_euclid(INCH));
    let mut step = 1;
    while (last - first) / step > MOST_TICKS {
        step *= 10;
    }
    ((first + step - 1).div_euclid(step) * step..=last).step_by(step as usize)
}

/// Text with what XML reserves written out, and without control characters.
pub fn escaped(text: &str) -> String {
    let text = text.replace('&', "&amp;").replace('<', "&lt;").replace('>', "&gt;");
    text.replace(|character: char| character.is_control(), "?")
}
