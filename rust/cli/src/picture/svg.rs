//! The picture as SVG.

use super::{circle, ticks, Picture};
use crate::text::hops_shown;
use crate::trace::Event;
use zeldrupa::Command;

/// Where things stand, in pixels.
const LEFT: f64 = 104.0;
const RIGHT: f64 = 30.0;
const TOP: f64 = 64.0;
const ROW: f64 = 88.0;
const BAR: f64 = 40.0;
const LEGEND: f64 = 74.0;
/// About how wide a character of the names is.
const CHARACTER: f64 = 7.2;

/// Light enough for dark names on them.
const COLOURS: [&str; 8] =
    ["#a8d5ba", "#f6d186", "#b8c4e8", "#f2b5a7", "#c9e4f6", "#d9c3e3", "#e3e59a", "#cfd8d7"];
const INK: &str = "#22303a";
const WAIT: &str = "fill=\"url(#wait)\" stroke=\"#b5b5b5\"";
const UNPACKING: &str = "fill=\"#dbe7f3\" stroke=\"#35618f\"";

/// The whole picture.
pub fn draw(picture: &Picture) -> String {
    let drawing = Drawing::new(picture);
    let chart = TOP + ROW * drawing.rows() as f64 + LEGEND;
    let (circle, circle_size) = circle::svg(picture, chart);
    let waits = (0..picture.trace.processors).filter_map(|k| drawing.vain_wait(k));
    let right = waits.map(|(_, _, end)| end).fold(LEFT + drawing.plot, f64::max);
    let width = (right + RIGHT).max(circle_size[0]);
    let height = chart + circle_size[1];
    let mut text = format!(
        "<svg xmlns=\"http://www.w3.org/2000/svg\" width=\"{width:.0}\" height=\"{height:.0}\" \
         viewBox=\"0 0 {width:.0} {height:.0}\" font-family=\"sans-serif\" font-size=\"12\" \
         fill=\"{INK}\">\n"
    );
    text += &format!("<title>{}</title>\n", escaped(&picture.title()));
    text += "<defs>\n\
             <pattern id=\"wait\" width=\"6\" height=\"6\" patternUnits=\"userSpaceOnUse\" \
             patternTransform=\"rotate(45)\"><rect width=\"6\" height=\"6\" fill=\"#f4f4f4\"/>\
             <rect width=\"2\" height=\"6\" fill=\"#c4c4c4\"/></pattern>\n";
    text += &(tip("tip", "#35618f") + &tip("stuck", "#c0392b") + "</defs>\n");
    text += &format!("<rect width=\"{width:.0}\" height=\"{height:.0}\" fill=\"#ffffff\"/>\n");
    text += &label(14.0, 26.0, "start", 16, &picture.title());
    text += &drawing.axis();
    // Below the rows, so that no line crosses a name.
    text += &drawing.messages();
    for processor in 0..picture.trace.processors {
        text += &drawing.row(processor);
    }
    text += &drawing.claim();
    text += &drawing.legend(chart - 24.0);
    text += &circle;
    text + "</svg>\n"
}

/// The tip of an arrow.
fn tip(name: &str, colour: &str) -> String {
    format!(
        "<marker id=\"{name}\" viewBox=\"0 0 8 8\" refX=\"7\" refY=\"4\" markerWidth=\"7\" \
         markerHeight=\"7\" orient=\"auto\"><path d=\"M0 0.5 L8 4 L0 7.5 z\" \
         fill=\"{colour}\"/></marker>\n"
    )
}

/// A picture with its scale.
struct Drawing<'a> {
    picture: &'a Picture<'a>,
    /// How wide the plot is.
    plot: f64,
    scale: f64,
}

impl<'a> Drawing<'a> {
    /// As wide as most names need inside their bars, within reason.
    fn new(picture: &'a Picture<'a>) -> Self {
        let span = f64::from(picture.span());
        let mut needs: Vec<f64> = picture
            .trace
            .runs()
            .iter()
            .map(|run| {
                let name = picture.task(run.task).chars().count() as f64 * CHARACTER + 10.0;
                name / f64::from((run.finish - run.start).max(1)) * span
            })
            .collect();
        needs.sort_by(f64::total_cmp);
        let most = needs.get(needs.len() * 4 / 5).copied().unwrap_or(0.0);
        let plot = most.clamp(720.0, 1800.0);
        Drawing { picture, plot, scale: plot / span }
    }

    fn x(&self, time: u32) -> f64 {
        LEFT + f64::from(time) * self.scale
    }

    /// How many rows there is room for: without programmes one, which stays empty.
    fn rows(&self) -> usize {
        self.picture.trace.processors.max(1)
    }

    /// The upper edge of a processor's bars.
    fn y(&self, processor: usize) -> f64 {
        TOP + ROW * processor as f64 + 8.0
    }

    fn bottom(&self) -> f64 {
        self.y(self.rows()) - ROW + BAR + 24.0
    }

    /// The time axis with lines through all rows.
    fn axis(&self) -> String {
        let (top, bottom) = (TOP - 6.0, self.bottom());
        let mut text = String::new();
        for tick in ticks(self.picture.span(), (self.plot / 80.0) as u32) {
            let x = self.x(tick);
            text += &line([x, top], [x, bottom], "stroke=\"#e2e6e9\"");
            text += &label(x, bottom + 16.0, "middle", 11, &tick.to_string());
        }
        text + &line([LEFT, bottom], [LEFT + self.plot, bottom], "stroke=\"#8a979f\"")
    }

    /// A processor's tasks, waits and receives.
    fn row(&self, processor: usize) -> String {
        let y = self.y(processor);
        let name = format!("processor {processor}");
        let mut text = label(14.0, y + BAR / 2.0 + 4.0, "start", 13, &name);
        let middle = y + BAR / 2.0;
        text += &line([LEFT, middle], [LEFT + self.plot, middle], "stroke=\"#eef1f3\"");
        for event in self.picture.trace.of_processor(processor) {
            match event.command {
                Command::Run(task) => text += &self.task(event, task.into(), y),
                Command::Receive(link) => {
                    text += &self.receive(event, &self.picture.link(link.into()), y);
                }
                Command::Send(_) | Command::Release(_) | Command::Discard(_) => (),
            }
        }
        text + &self.releases(processor) + &self.in_vain(processor)
    }

    /// What a processor gives back, a ring for all of one time.
    fn releases(&self, processor: usize) -> String {
        let events = self.picture.trace.of_processor(processor);
        let releases: Vec<&Event> = events.filter(|event| event.gives_back()).collect();
        let mut text = String::new();
        for together in releases.chunk_by(|one, other| one.start == other.start) {
            let things = together.iter().map(|event| self.picture.given_back(event.command));
            let things = things.collect::<Vec<_>>().join(", ");
            let Event { start, store, .. } = *together[together.len() - 1];
            let told = format!("releases {things} at {start}, store {store}");
            text += &ring(self.x(start), self.y(processor) + BAR, &told);
        }
        text
    }

    /// A receive: the wait for its message, its mark, and the unpacking.
    fn receive(&self, event: &Event, link: &str, y: f64) -> String {
        let Event { start, finish, .. } = *event;
        let there = event.has_message();
        let [from, at, end] = [start, there, finish].map(|time| self.x(time));
        let height = BAR - 16.0;
        let mut text = String::new();
        if event.waited() > 0 {
            let told = format!("waits for {link}, {start} to {there}");
            text += &bar([from, y + 8.0], [at - from, height], WAIT, &told);
        }
        if event.unpacked() > 0 {
            let told = format!("unpacks {link}, {there} to {finish}");
            text += &bar([at, y + 8.0], [end - at, height], UNPACKING, &told);
        }
        // Behind a task it stands at the lower edge, where it hides no name.
        let level = if event.waited() > 0 { BAR / 2.0 } else { BAR - 7.0 };
        text + &receipt(at, y + level, &format!("receives {link} at {there}"))
    }

    fn task(&self, event: &Event, task: usize, y: f64) -> String {
        let (x, end) = (self.x(event.start), self.x(event.finish));
        let (width, times) = (end - x, format!("{} to {}", event.start, event.finish));
        let name = self.picture.task(task);
        let fill = format!("rx=\"3\" fill=\"{}\" stroke=\"{INK}\"", COLOURS[task % COLOURS.len()]);
        let mut text = bar([x, y], [width, BAR], &fill, &format!("{name}, {times}"));
        let across = ((width - 6.0) / CHARACTER).max(0.0) as usize;
        let upright = ((BAR - 4.0) / 5.2) as usize;
        let length = name.chars().count();
        let (x, y) = (x + width / 2.0, y + BAR / 2.0);
        if length <= across || across >= upright.min(length) {
            text += &label(x, y + 4.0, "middle", 12, &shortened(&name, across));
        } else if width >= 11.0 {
            let name = escaped(&shortened(&name, upright));
            text += &format!(
                "<text x=\"{x:.1}\" y=\"{:.1}\" text-anchor=\"middle\" font-size=\"9\" \
                 transform=\"rotate(-90 {x:.1} {y:.1})\">{name}</text>\n",
                y + 3.0
            );
        }
        text
    }

    /// What a processor of a stuck bundle waits for, and from where to where this stands.
    fn vain_wait(&self, processor: usize) -> Option<(String, f64, f64)> {
        let wait = self.picture.waiting(processor)?;
        let clock = self.picture.trace.of_processor(processor).map(|event| event.finish).max();
        let start = self.x(clock.unwrap_or(0));
        let told = format!("waits for {}", self.picture.link(wait.link.into()));
        let end = start + told.chars().count() as f64 * CHARACTER + 24.0;
        Some((told, start, end.max(LEFT + self.plot)))
    }

    /// The wait of a stuck bundle, to the end of the picture.
    fn in_vain(&self, processor: usize) -> String {
        let Some((told, x, end)) = self.vain_wait(processor) else { return String::new() };
        let y = self.y(processor);
        let fill = "fill=\"url(#wait)\" stroke=\"#c0392b\" stroke-dasharray=\"5 3\"";
        let hatched = bar([x, y + 4.0], [end - x, BAR - 8.0], fill, &told);
        // The words stand on white, so that the hatching does not cross them.
        let length = told.chars().count() as f64 * CHARACTER + 8.0;
        let ground = bar([x + 8.0, y + 11.0], [length, 18.0], "fill=\"#ffffff\"", &told);
        hatched + &ground + &label(x + 12.0, y + 24.0, "start", 12, &told)
    }

    /// The messages as arrows between rows.
    fn messages(&self) -> String {
        let messages = self.picture.messages();
        let opacity = if messages.len() > 80 { 0.4 } else { 0.9 };
        let mut text = String::new();
        for message in messages {
            let down = message.to > message.from;
            let (from, to) = (self.y(message.from), self.y(message.to));
            let (from, to) = if down { (from + BAR, to) } else { (from, to + BAR) };
            let received =
                message.received.map_or(String::new(), |at| format!(", received at {at}"));
            let told = format!(
                "{}: sent at {}{}, there at {}{received}",
                self.picture.link(message.link),
                message.sent,
                hops_shown(self.picture.of.sheet.board(), message.from, message.to),
                message.there
            );
            // An arrow that would leave the picture ends at its edge.
            let there = self.x(message.there.min(self.picture.span()));
            text += &format!(
                "<path d=\"M{:.1} {from:.1} L{there:.1} {to:.1}\" stroke=\"#35618f\" \
                 stroke-width=\"1.3\" opacity=\"{opacity}\" fill=\"none\" \
                 marker-end=\"url(#tip)\"><title>{}</title></path>\n",
                self.x(message.sent),
                escaped(&told)
            );
        }
        text
    }

    /// The claim as a line through all rows, and where it is wrong the latest clock too.
    fn claim(&self) -> String {
        let mut lines = vec![(format!("claim {}", self.picture.claim()), self.picture.claim())];
        let latest = self.picture.trace.latest;
        if !self.picture.trace.circle.is_empty() {
            lines.clear();
        } else if latest != self.picture.claim() {
            lines.push((format!("ends at {latest}"), latest));
        }
        let mut text = String::new();
        for (number, (told, time)) in lines.iter().enumerate() {
            let x = self.x(*time);
            let style = "stroke=\"#c0392b\" stroke-width=\"1.5\" stroke-dasharray=\"6 4\"";
            text += &line([x, TOP - 8.0], [x, self.bottom()], style);
            let y = TOP - 14.0 - 14.0 * number as f64;
            text +=
                &format!("<g fill=\"#c0392b\">{}</g>\n", label(x, y, "end", 12, told).trim_end());
        }
        text
    }

    /// What the marks mean.
    fn legend(&self, y: f64) -> String {
        let mut text = String::new();
        let task = format!("rx=\"3\" fill=\"{}\" stroke=\"{INK}\"", COLOURS[0]);
        text += &bar([LEFT, y - 11.0], [26.0, 14.0], &task, "task");
        text += &label(LEFT + 32.0, y, "start", 11, "task");
        text += &bar([LEFT + 90.0, y - 11.0], [26.0, 14.0], WAIT, "wait");
        text += &label(LEFT + 122.0, y, "start", 11, "waits for a message");
        text += &receipt(LEFT + 258.0, y - 4.0, "receive");
        text += &label(LEFT + 266.0, y, "start", 11, "receives it");
        let arrow = "stroke=\"#35618f\" stroke-width=\"1.3\" marker-end=\"url(#tip)\"";
        text += &line([LEFT + 352.0, y - 4.0], [LEFT + 384.0, y - 4.0], arrow);
        text += &label(LEFT + 392.0, y, "start", 11, "message, from its send until it is there");
        if self.picture.of.sheet.board().unpacking > 0 {
            text += &bar([LEFT + 640.0, y - 11.0], [26.0, 14.0], UNPACKING, "unpacking");
            text += &label(LEFT + 672.0, y, "start", 11, "unpacks it");
        }
        if self.picture.trace.events.iter().any(Event::gives_back) {
            text += &ring(LEFT + 13.0, y + 16.0, "release");
            text += &label(LEFT + 32.0, y + 20.0, "start", 11, "gives store back");
        }
        text
    }
}

/// A rectangle that says what it is when pointed at.
fn bar([x, y]: [f64; 2], [width, height]: [f64; 2], style: &str, told: &str) -> String {
    let told = escaped(told);
    format!(
        "<rect x=\"{x:.1}\" y=\"{y:.1}\" width=\"{width:.1}\" height=\"{height:.1}\" {style}>\
         <title>{told}</title></rect>\n"
    )
}

/// The mark of a receive: a small wedge that ends at its time.
fn receipt(x: f64, y: f64, told: &str) -> String {
    let (left, top, bottom) = (x - 7.0, y - 6.0, y + 6.0);
    format!(
        "<path d=\"M{left:.1} {top:.1} L{x:.1} {y:.1} L{left:.1} {bottom:.1} z\" fill=\"#35618f\">\
         <title>{}</title></path>\n",
        escaped(told)
    )
}

/// The mark of what is given back.
fn ring(x: f64, y: f64, told: &str) -> String {
    format!(
        "<circle cx=\"{x:.1}\" cy=\"{y:.1}\" r=\"3.5\" fill=\"#ffffff\" stroke=\"#35618f\" \
         stroke-width=\"1.5\"><title>{}</title></circle>\n",
        escaped(told)
    )
}

fn line([x1, y1]: [f64; 2], [x2, y2]: [f64; 2], style: &str) -> String {
    format!("<line x1=\"{x1:.1}\" y1=\"{y1:.1}\" x2=\"{x2:.1}\" y2=\"{y2:.1}\" {style}/>\n")
}

/// A text at a point.
pub fn label(x: f64, y: f64, anchor: &str, size: u32, text: &str) -> String {
    let text = escaped(text);
    format!("<text x=\"{x:.1}\" y=\"{y:.1}\" text-anchor=\"{anchor}\" font-size=\"{size}\">{text}</text>\n")
}

/// A name in so many characters.
fn shortened(name: &str, most: usize) -> String {
    match name.chars().count() <= most {
        true => name.to_string(),
        false => name.chars().take(most.saturating_sub(1)).chain(['…']).collect(),
    }
}

/// A text as XML can hold it.
pub fn escaped(text: &str) -> String {
    let mut escaped = String::new();
    for c in text.chars() {
        match c {
            '&' => escaped += "&amp;",
            '<' => escaped += "&lt;",
            '>' => escaped += "&gt;",
            '"' => escaped += "&quot;",
            '\u{FFFE}' | '\u{FFFF}' => escaped.push('\u{FFFD}'),
            c if c.is_control() => escaped.push('\u{FFFD}'),
            c => escaped.push(c),
        }
    }
    escaped
}
