//! Rows of text below each other.

/// What stands between two columns.
pub const GAP: &str = "   ";

/// The side on which the cells of a column stand.
#[derive(Clone, Copy, PartialEq, Eq)]
pub enum Side {
    /// Words.
    Left,
    /// Numbers.
    Right,
}

/// Rows below each other, each column as wide as its widest cell.
pub fn aligned<const COLUMNS: usize>(sides: [Side; COLUMNS], rows: &[[String; COLUMNS]]) -> String {
    let width = |column: usize| rows.iter().map(|row| row[column].chars().count()).max().unwrap_or(0);
    let widths: [usize; COLUMNS] = std::array::from_fn(width);
    let cell = |row: &[String; COLUMNS], column: usize| match (sides[column], widths[column]) {
        (Side::Left, width) => format!("{:<width$}", row[column]),
        (Side::Right, width) => format!("{:>width$}", row[column]),
    };
    let line = |row: &[String; COLUMNS]| {
        let cells: [String; COLUMNS] = std::array::from_fn(|column| cell(row, column));
        cells.join(GAP).trim_end().to_string() + "\n"
    };
    rows.iter().map(line).collect()
}

#[cfg(test)]
mod tests {
    use super::*;

    #[test]
    fn columns_are_as_wide_as_their_widest_cell() {
        let rows = [["a", "number", "words"], ["long", "7", "x"], ["b", "1,204", ""]].map(|row| row.map(String::from));
        assert_eq!(
            aligned([Side::Left, Side::Right, Side::Left], &rows),
            "a      number   words\nlong        7   x\nb       1,204\n"
        );
        assert_eq!(aligned([Side::Left], &[]), "");
    }
}
