// The lists that the table of promises has between marks, which a program makes.

use crate::promises::PROMISES;

pub struct List {
    /// The name in its marks, `<!-- NAME: begin -->` and `<!-- NAME: end -->`.
    pub name: &'static str,
    /// The rows of a table.
    pub text: String,
}

impl List {
    /// The page with the list between its marks, if it has them.
    pub fn replaced(&self, page: &str) -> Option<String> {
        let (begin, end) = self.place(page)?;
        Some(format!("{}{}{}", &page[..begin], self.text, &page[end..]))
    }

    /// How the list that stands in the page differs from this one, row by row.
    pub fn standing(&self, page: &str) -> Vec<String> {
        let Some((begin, end)) = self.place(page) else {
            return vec![format!("{PROMISES}: no lines for the list `{}`", self.name)];
        };
        let there = &page[begin..end];
        let missing: Vec<&str> = self.text.lines().filter(|row| !there.lines().any(|other| other == *row)).collect();
        let extra: Vec<&str> = there.lines().filter(|row| !self.text.lines().any(|other| other == *row)).collect();
        let changed = |row: &str| missing.iter().any(|other| first_cell(other) == first_cell(row));
        let gone = extra.iter().filter(|row| !changed(row)).map(|row| format!("- {row}"));
        let made = missing.iter().map(|row| match extra.iter().find(|other| first_cell(other) == first_cell(row)) {
            Some(other) => format!("{}:{}", first_cell(row), difference(other, row)),
            None => format!("+ {row}"),
        });
        let mut found: Vec<String> = gone.chain(made).map(|line| format!("{PROMISES}: {line}")).collect();
        if found.is_empty() && there != self.text {
            found.push(format!("{PROMISES}: the list `{}` is in another order", self.name));
        }
        found
    }

    /// Where what stands between the marks begins and ends.
    fn place(&self, page: &str) -> Option<(usize, usize)> {
        let mark = format!("<!-- {}: begin -->\n", self.name);
        let begin = page.find(&mark)? + mark.len();
        let end = page[begin..].find(&format!("<!-- {}: end -->", self.name))?;
        Some((begin, begin + end))
    }
}

fn first_cell(row: &str) -> &str {
    row.split('|').nth(1).unwrap_or_default().trim()
}

/// The words that only one of two rows has, those of the first behind `-`.
fn difference(row: &str, other: &str) -> String {
    let words = only_in(" -", row, other) + &only_in(" +", other, row);
    if words.is_empty() {
        return " in another order".to_string();
    }
    words
}

/// The words of a row that another has not, cell by cell, each behind the mark.
fn only_in(mark: &str, row: &str, other: &str) -> String {
    let words = |cell: &str| cell.split([' ', ',', ';']).filter(|word| !word.is_empty()).map(String::from).collect::<Vec<_>>();
    let cells = row.split('|').zip(other.split('|').map(words));
    let only = cells.flat_map(|(cell, theirs)| words(cell).into_iter().filter(move |word| !theirs.contains(word)));
    only.map(|word| format!("{mark} {word}")).collect()
}
