//! Who owns whom, as a drawing: a box for each login, below its owner and to the right of it, with the logs it owns beside it.

use crate::html::escape;
use crate::names::Names;
use crate::record::{Name, Record, column_of};

const ROW: usize = 34;
const INDENT: usize = 30;
const HEIGHT: usize = 24;
/// The width of a character of the drawing's font, in tenths.
const CHARACTER: usize = 73;
/// The most logs that are drawn beside a login; the others are counted.
const MOST_LOGS: usize = 6;

/// The drawing.
pub fn drawing(record: &Record, names: &Names) -> String {
    let mut drawing = Drawing {
        record,
        names,
        rows: 0,
        width: 0,
        lines: String::new(),
        boxes: String::new(),
    };
    drawing.add(0, 0);
    let (width, height) = (drawing.width + 20, drawing.rows * ROW + 16);
    format!(
        "<svg xmlns=\"http://www.w3.org/2000/svg\" width=\"{width}\" height=\"{height}\" \
         viewBox=\"0 0 {width} {height}\" role=\"img\" aria-label=\"Who owns whom\">\n\
         <g stroke=\"#8c99a8\" stroke-width=\"1.5\" fill=\"none\">\n{}</g>\n{}</svg>\n",
        drawing.lines, drawing.boxes
    )
}

struct Drawing<'a> {
    record: &'a Record,
    names: &'a Names,
    rows: usize,
    width: usize,
    lines: String,
    boxes: String,
}

impl Drawing<'_> {
    /// Draws a login and all below it; gives the height of the middle of its box.
    fn add(&mut self, login: u64, level: usize) -> usize {
        let (x, y) = (16 + level * INDENT, 12 + self.rows * ROW);
        self.rows += 1;
        let mut label = self.names.label(Name::Login(login));
        if login == 0 {
            label.push_str(" (U)");
        }
        let end = self.add_box(x, y, &label, "", ["#cfe0fc", "#0a3069"]);
        let owned = self.record.owned(login).into_iter();
        let (below, logs): (Vec<Name>, Vec<Name>) = owned
            .map(|column| self.record.name(column))
            .partition(|name| matches!(name, Name::Login(_)));
        self.add_logs(end + 10, y, &logs);
        for name in below {
            let middle = self.add(column_of(name), level + 1);
            let (from, to) = (x + 12, x + INDENT);
            self.lines.push_str(&format!(
                "<path d=\"M{from} {} V{middle} H{to}\"/>\n",
                y + HEIGHT
            ));
        }
        y + HEIGHT / 2
    }

    /// Draws the logs of a login in its row.
    fn add_logs(&mut self, mut x: usize, y: usize, logs: &[Name]) {
        let most = if logs.len() <= MOST_LOGS + 1 {
            logs.len()
        } else {
            MOST_LOGS
        };
        for log in &logs[..most] {
            let owners = self.record.owners(column_of(*log));
            let shared = match owners.len() {
                0 | 1 => String::new(),
                _ => format!("owned by {}", self.names.logins(&owners)),
            };
            let label = self.names.label(*log);
            x = 6 + self.add_box(x, y, &label, &shared, ["#eef1f4", "#1c2430"]);
        }
        if logs.len() > most {
            let label = format!("and {} more logs", logs.len() - most);
            let all: Vec<String> = logs.iter().map(|log| self.names.label(*log)).collect();
            self.add_box(x, y, &label, &all.join(", "), ["#ffffff", "#57606a"]);
        }
    }

    /// Draws a box with a text; gives where it ends.
    fn add_box(
        &mut self,
        x: usize,
        y: usize,
        label: &str,
        title: &str,
        colours: [&str; 2],
    ) -> usize {
        let wide = |c: char| if c as u32 >= 0x1100 { 2 } else { 1 };
        let characters: usize = label.chars().map(wide).sum();
        let width = characters * CHARACTER / 10 + 16;
        let [fill, ink] = colours;
        let (title, dashes) = match title {
            "" => (String::new(), ""),
            title => (
                format!("<title>{}</title>", escape(title)),
                " stroke-dasharray=\"4 3\"",
            ),
        };
        self.boxes.push_str(&format!(
            "<g>{title}<rect x=\"{x}\" y=\"{y}\" width=\"{width}\" height=\"{HEIGHT}\" rx=\"5\" fill=\"{fill}\" stroke=\"#8c99a8\"{dashes}/>\
             <text x=\"{}\" y=\"{}\" fill=\"{ink}\">{}</text></g>\n",
            x + 8,
            y + 16,
            escape(label)
        ));
        self.width = self.width.max(x + width);
        x + width
    }
}
