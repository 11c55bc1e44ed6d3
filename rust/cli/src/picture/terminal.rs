//! The picture with characters.

use super::{circle, ticks, Message, Picture};
use crate::table::columns;
use zeldrupa::Command;

/// The most lines that messages may take between two rows.
const MOST_LANES: usize = 6;

/// A place that the wide character before it covers.
const COVERED: char = '\0';

/// A text in places of one column each; marks that take none are left out.
fn cells(text: &str) -> Vec<char> {
    let mut cells = Vec::new();
    for c in text.chars() {
        match columns(c) {
            0 => (),
            1 => cells.push(c),
            _ => cells.extend([c, COVERED]),
        }
    }
    cells
}

/// The whole picture, at most so many characters wide.
pub fn draw(picture: &Picture, width: usize) -> String {
    let mut drawing = Drawing::new(picture, width);
    let mut messages = picture.messages();
    let dense = !drawing.lay_out(&messages);
    if dense {
        messages.clear();
        drawing.lay_out(&messages);
    }
    drawing.rows();
    for (number, message) in messages.iter().enumerate() {
        drawing.message(number, message);
    }
    let mut text = format!("{}\n\n", picture.title());
    if picture.trace.circle.is_empty() {
        text += &drawing.claim();
    }
    for line in &drawing.canvas {
        text += line.iter().filter(|&&c| c != COVERED).collect::<String>().trim_end();
        text.push('\n');
    }
    text += &drawing.axis();
    if dense {
        text += "The messages are too many for characters; -o FILE.svg draws them.\n";
    }
    if !picture.trace.circle.is_empty() {
        text += &format!("\nEach waits for a message of the next:\n\n{}", circle::lines(picture));
    }
    text
}

struct Drawing<'a> {
    picture: &'a Picture<'a>,
    left: usize,
    /// How many characters stand for the whole span.
    plot: usize,
    canvas: Vec<Vec<char>>,
    /// The line of each processor.
    rows: Vec<usize>,
    /// The line between two rows along which each message goes.
    lanes: Vec<usize>,
}

impl<'a> Drawing<'a> {
    fn new(picture: &'a Picture<'a>, width: usize) -> Self {
        let left = format!("processor {} ", picture.trace.processors.saturating_sub(1)).len();
        let plot = width - left - 1;
        Drawing { picture, left, plot, canvas: Vec::new(), rows: Vec::new(), lanes: Vec::new() }
    }

    fn x(&self, time: u32) -> usize {
        let (time, span) = (u64::from(time.min(self.picture.span())), self.picture.span());
        self.left + ((time * self.plot as u64 + u64::from(span) / 2) / u64::from(span)) as usize
    }

    /// Gives each message a line next to its receiver's row, and each row its own; false if some gap
    /// between rows would need more lines than it may have.
    fn lay_out(&mut self, messages: &[Message]) -> bool {
        let processors = self.picture.trace.processors;
        // Of each gap between rows, the stretches of its lanes.
        let mut gaps: Vec<Vec<Vec<[usize; 2]>>> = vec![Vec::new(); processors.saturating_sub(1)];
        let mut chosen = Vec::new();
        for message in messages {
            let gap = gap_of(message);
            let ends = [self.x(message.sent), self.x(message.there)];
            let stretch = [ends[0].min(ends[1]), ends[0].max(ends[1])];
            let free = |lane: &Vec<[usize; 2]>| {
                lane.iter().all(|other| other[1] + 1 < stretch[0] || stretch[1] + 1 < other[0])
            };
            let lanes = &mut gaps[gap];
            let lane = lanes.iter().position(free).unwrap_or(lanes.len());
            if lane == lanes.len() {
                lanes.push(Vec::new());
            }
            lanes[lane].push(stretch);
            chosen.push((gap, lane));
        }
        let (mut line, mut starts) = (0, Vec::new());
        self.rows.clear();
        for processor in 0..processors {
            self.rows.push(line);
            let lanes = gaps.get(processor).map_or(0, Vec::len);
            starts.push(line + 2);
            line += match lanes {
                _ if processor + 1 == processors => 1,
                // A line for what passes by, or for the tips above and below the lanes.
                0 => 1 + usize::from(!messages.is_empty()),
                lanes => lanes + 3,
            };
        }
        self.canvas = vec![vec![' '; self.left + self.plot + 1]; line];
        self.lanes = chosen.iter().map(|&(gap, lane)| starts[gap] + lane).collect();
        gaps.iter().all(|lanes| lanes.len() <= MOST_LANES)
    }

    /// Each processor's tasks, waits and unpacking.
    fn rows(&mut self) {
        for processor in 0..self.picture.trace.processors {
            let y = self.rows[processor];
            self.write(y, 0, &format!("processor {processor}"));
            for event in self.picture.trace.of_processor(processor) {
                let (start, end) = (self.x(event.start), self.x(event.finish));
                match event.command {
                    Command::Run(task) => self.task(y, start, end, &self.picture.task(task.into())),
                    Command::Receive(_) => self.receive(y, start, self.x(event.has_message()), end),
                    // These take no time.
                    Command::Send(_) | Command::Release(_) | Command::Discard(_) => (),
                }
            }
            if let Some(wait) = self.picture.waiting(processor) {
                let events = self.picture.trace.of_processor(processor);
                let start = self.x(events.map(|event| event.finish).max().unwrap_or(0));
                let told = format!("..waits for {}..", self.picture.link(wait.link.into()));
                self.write(y, start, &told);
            }
        }
    }

    /// A wait, the mark of its end, and the unpacking.
    fn receive(&mut self, y: usize, start: usize, there: usize, end: usize) {
        self.canvas[y][start..there].fill('.');
        self.canvas[y][there..end].fill('~');
        if there > start {
            self.canvas[y][there - 1] = '>';
        } else if end > there {
            self.canvas[y][there] = '>';
        }
    }

    /// A task in the characters from `start` to before `end`.
    fn task(&mut self, y: usize, start: usize, end: usize, name: &str) {
        let row = &mut self.canvas[y];
        match end - start {
            0 => (),
            1 => row[start] = '#',
            width => {
                row[start..end].fill('=');
                (row[start], row[end - 1]) = ('[', ']');
                let room = width - 2;
                let mut name = cells(name);
                name.truncate(room);
                if name.last().is_some_and(|&last| columns(last) == 2) {
                    name.pop();
                }
                let from = start + 1 + (room - name.len()) / 2;
                row[from..from + name.len()].copy_from_slice(&name);
            }
        }
    }

    /// A message: down or up from its send, along its lane, and to its receiver.
    fn message(&mut self, number: usize, message: &Message) {
        let (from, to) = (self.rows[message.from], self.rows[message.to]);
        let (sent, there) = (self.x(message.sent), self.x(message.there));
        let lane = self.lanes[number];
        let down = to > from;
        let vertical = |one: usize, other: usize| one.min(other) + 1..one.max(other);
        vertical(from, lane).for_each(|y| self.mark(y, sent, '|'));
        vertical(lane, to).for_each(|y| self.mark(y, there, '|'));
        (sent.min(there)..=sent.max(there)).for_each(|x| self.mark(lane, x, '-'));
        for x in [sent, there] {
            self.canvas[lane][x] = if sent == there { '|' } else { '+' };
        }
        let tip = if down { (to - 1, 'v') } else { (to + 1, '^') };
        self.canvas[tip.0][there] = tip.1;
    }

    /// The claim through all rows; the line above them that names it.
    fn claim(&mut self) -> String {
        let x = self.x(self.picture.claim());
        for y in 0..self.canvas.len() {
            if self.canvas[y][x] == ' ' {
                self.canvas[y][x] = ':';
            }
        }
        let told = format!("claim {} ", self.picture.claim());
        match told.len() <= x {
            true => format!("{told:>x$}:\n"),
            false => String::new(),
        }
    }

    /// Puts a character where nothing is; lines that cross make a cross.
    fn mark(&mut self, y: usize, x: usize, mark: char) {
        let cell = &mut self.canvas[y][x];
        *cell = match (*cell, mark) {
            (' ', mark) => mark,
            ('|', '-') | ('-', '|') => '+',
            (there, _) => there,
        };
    }

    fn write(&mut self, y: usize, x: usize, text: &str) {
        for (cell, c) in self.canvas[y][x..].iter_mut().zip(cells(text)) {
            *cell = c;
        }
    }

    /// The time axis below the rows.
    fn axis(&self) -> String {
        let width = self.left + self.plot + 12;
        let (mut marks, mut numbers) = (vec![' '; width], vec![' '; width]);
        marks[self.left..=self.left + self.plot].fill('-');
        for tick in ticks(self.picture.span(), self.plot as u32 / 10) {
            let x = self.x(tick);
            marks[x] = '+';
            for (cell, c) in numbers[x..].iter_mut().zip(tick.to_string().chars()) {
                *cell = c;
            }
        }
        let text = |line: Vec<char>| line.into_iter().collect::<String>().trim_end().to_string();
        format!("{}\n{}\n", text(marks), text(numbers))
    }
}

/// The gap between two rows in which a message turns to its receiver.
fn gap_of(message: &Message) -> usize {
    match message.to > message.from {
        true => message.to - 1,
        false => message.to,
    }
}
