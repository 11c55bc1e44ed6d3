//! A stuck bundle's circle: who waits for whom.

use super::svg::{escaped, label};
use super::Picture;
use std::f64::consts::PI;
use zeldrupa::Wait;

/// How far a node reaches from its middle.
const NODE: f64 = 30.0;

/// The circle below a chart as SVG, and how wide it is and how much higher it makes the picture.
pub fn svg(picture: &Picture, top: f64) -> (String, [f64; 2]) {
    let circle = &picture.trace.circle;
    if circle.is_empty() {
        return (String::new(), [0.0, 0.0]);
    }
    let count = circle.len() as f64;
    let radius = (count * 28.0).max(80.0);
    let told: Vec<String> = circle.iter().map(|wait| waits_for(picture, wait)).collect();
    let longest = told.iter().map(|told| told.chars().count()).max().unwrap_or(0) as f64 * 6.8;
    let (x, y) = (longest + radius + 50.0, top + radius + 78.0);
    let at = |turn: f64| {
        let angle = turn / count * 2.0 * PI - PI / 2.0;
        [angle.cos(), angle.sin()]
    };

    let mut text = label(14.0, top + 10.0, "start", 14, "Each waits for a message of the next:");
    for (number, wait) in circle.iter().enumerate() {
        let turn = number as f64;
        let [c, s] = at(turn);
        let (node_x, node_y) = (x + radius * c, y + radius * s);
        text += &format!(
            "<circle cx=\"{node_x:.1}\" cy=\"{node_y:.1}\" r=\"{NODE}\" fill=\"#fbe3df\" \
             stroke=\"#c0392b\"/>\n"
        );
        text += &label(node_x, node_y - 2.0, "middle", 11, "processor");
        text += &label(node_x, node_y + 13.0, "middle", 13, &wait.processor.to_string());

        // The arrow runs along the circle from the edge of one node to the edge of the next.
        let edge = (NODE + 5.0) / radius * count / (2.0 * PI);
        let [[c1, s1], [c2, s2]] = [at(turn + edge), at(turn + 1.0 - edge)];
        text += &format!(
            "<path d=\"M{:.1} {:.1} A{radius:.1} {radius:.1} 0 0 1 {:.1} {:.1}\" fill=\"none\" \
             stroke=\"#c0392b\" stroke-width=\"1.6\" marker-end=\"url(#stuck)\"><title>{}</title></path>\n",
            x + radius * c1,
            y + radius * s1,
            x + radius * c2,
            y + radius * s2,
            escaped(&told[number])
        );
        let [c, s] = at(turn + 0.5);
        let anchor = match c {
            c if c > 0.2 => "start",
            c if c < -0.2 => "end",
            _ => "middle",
        };
        let beside = radius + 14.0;
        text += &label(x + beside * c, y + beside * s + 4.0, anchor, 12, &told[number]);
    }
    (text, [2.0 * x, 2.0 * radius + 140.0])
}

/// The circle as lines of characters.
pub fn lines(picture: &Picture) -> String {
    let mut text = String::new();
    let circle = &picture.trace.circle;
    for (number, wait) in circle.iter().enumerate() {
        let edge = if number == 0 { "+-->" } else { "|   " };
        let Wait { processor, position, sender, send, .. } = *wait;
        let told = waits_for(picture, wait);
        text += &format!("{edge} processor {processor} {told}, at its command {position};\n");
        text += &format!("|      processor {sender} sends that at its command {send}, but\n");
    }
    if let Some(first) = circle.first() {
        text += &format!("+--- so back to processor {}\n", first.processor);
    }
    text
}

fn waits_for(picture: &Picture, wait: &Wait) -> String {
    format!("waits for {}", picture.link(wait.link.into()))
}
