//! The table of a trial in plain text, and what its columns are.
use super::tally::Tally;
use super::{Plan, Row};

const HEADINGS: [&str; 14] = [
    "rate",
    "reader",
    "refused",
    "warned",
    "clean",
    "mended",
    "lost",
    "missing",
    "replaced",
    "wrong",
    "unnamed",
    "settings",
    "untrue",
    "refused with",
];

const LEGEND: &str = "\
refused   utterances that the library refused; refused with: the numbers of the refusals, and how many utterances each had
warned    utterances that were read, but with a note or without their end
clean     utterances that were read with no note and with their end: lists without a warning
All that follows is of the utterances that were read:
mended    headers with one or two flips mended
lost      headers with no codeword within two bits
missing   multiframes sent less those read, where fewer were read
replaced  pairs that were bad and replaced, of all pairs
wrong     frames that are not the frame sent at their place (zeros where it was padding), though their pair's note is 0
unnamed   those of them in multiframes whose header note has neither + 4 nor + 8: nothing says that they are wrong
settings  utterances read with another rate or front end than was sent
untrue    clean utterances whose settings, frames or number of frames are not those sent: a yard would believe them
";

/// All of what a trial prints.
pub fn page(plan: &Plan, rows: &[Row]) -> String {
    let mut lines = vec![HEADINGS.map(str::to_string).to_vec()];
    for row in rows {
        lines.push(cells(row.rate_shown(plan), "octets", &row.octets));
        lines.push(cells(row.rate_shown(plan), "bits", &row.bits));
    }
    format!("{}: {}\n\n{}\n{LEGEND}", plan.damage_words(), plan.size(), aligned(&lines, &[1, 13]))
}

fn cells(rate: String, reader: &str, tally: &Tally) -> Vec<String> {
    let numbers = [tally.warned, tally.clean, tally.mended, tally.lost, tally.missing];
    let ends = [tally.wrong, tally.unnamed, tally.settings, tally.untrue];
    let refused_with: Vec<String> = tally.refused.iter().map(|(number, many)| format!("{number}: {many}")).collect();
    let mut cells = vec![rate, reader.to_string(), percent(tally.refused_share())];
    cells.extend(numbers.map(|number| number.to_string()));
    cells.push(percent(tally.replaced_share()));
    cells.extend(ends.map(|number| number.to_string()));
    cells.push(refused_with.join(", "));
    cells
}

/// A share in percent; a dash if it is a share of nothing.
fn percent(share: Option<f64>) -> String {
    share.map_or("-".to_string(), |share| format!("{:.2}%", 100.0 * share))
}

/// Lines of cells, each column as wide as its widest cell; the columns in `left` begin alike, all others end alike.
pub fn aligned(lines: &[Vec<String>], left: &[usize]) -> String {
    let columns = lines.iter().map(Vec::len).max().unwrap_or(0);
    let width =
        |column: usize| lines.iter().filter_map(|line| line.get(column)).map(|cell| cell.chars().count()).max().unwrap_or(0);
    let widths: Vec<usize> = (0..columns).map(width).collect();
    let cell = |(column, text): (usize, &String)| match left.contains(&column) {
        true => format!("{text:<0$}", widths[column]),
        false => format!("{text:>0$}", widths[column]),
    };
    let line =
        |cells: &Vec<String>| cells.iter().enumerate().map(cell).collect::<Vec<_>>().join("  ").trim_end().to_string() + "\n";
    lines.iter().map(line).collect()
}

#[cfg(test)]
mod tests {
    use super::{aligned, percent};

    #[test]
    fn columns_begin_or_end_alike() {
        let lines = [["a", "bbb", "c"], ["aa", "b", ""]].map(|line| line.map(str::to_string).to_vec());
        assert_eq!(aligned(&lines, &[1]), " a  bbb  c\naa  b\n");
    }

    #[test]
    fn a_share_of_nothing_is_a_dash() {
        assert_eq!((percent(None), percent(Some(0.0123))), ("-".to_string(), "1.23%".to_string()));
    }
}
