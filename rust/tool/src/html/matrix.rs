//! The page of `show`: the matrix as a grid, who owns whom as a drawing, and every right in words.

use crate::html::grid::{Grid, legend};
use crate::html::{escape, owners, page as whole};
use crate::input::Station;
use crate::record::{Name, column_of, rights_in, sizes};

/// The page of a station.
pub fn page(station: &Station) -> String {
    let Station {
        file,
        record,
        names,
    } = station;
    let grid = Grid {
        record,
        names,
        rows: record.existing_logins(),
        columns: record.existing(),
        trusted: 0,
        before: None,
        asked: None,
    };
    let body = format!(
        "<p>{}. What does not exist is left out.</p>\n<h2>Who may do what</h2>\n{}{}\
         <h2>Who owns whom</h2>\n<p>Each login stands below its owner; the logs that it owns stand beside it, \
         those with other owners too in a broken frame.</p>\n\
         <div class=\"wide\">{}</div>\n<h2>In words</h2>\n{}",
        escape(&sizes(record)),
        legend(grid.columns.len(), record, names),
        grid.html(),
        owners::drawing(record, names),
        in_words(station, grid.columns.len() <= 8)
    );
    whole(&format!("Rights of {file}"), &body)
}

/// What each login has, to be unfolded.
fn in_words(station: &Station, open: bool) -> String {
    let Station { record, names, .. } = station;
    let open = if open { " open" } else { "" };
    let mut out = String::new();
    for login in record.existing_logins() {
        let who = escape(&names.label(Name::Login(login)));
        out.push_str(&format!("<details{open}><summary>{who}</summary>\n<ul>\n"));
        for name in record.existing() {
            let cell = record.cell(login, column_of(name));
            if cell != 0 {
                let over = if name == Name::Login(login) {
                    String::from("itself")
                } else {
                    names.label(name)
                };
                let rights = names.rights(&rights_in(cell));
                out.push_str(&format!(
                    "<li>has {} over {}</li>\n",
                    escape(&rights),
                    escape(&over)
                ));
            }
        }
        out.push_str("</ul></details>\n");
    }
    out
}
