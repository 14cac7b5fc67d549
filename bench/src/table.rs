// Tables in Markdown: labels, the times of the columns, ratios.

use crate::columns::Column;
use crate::measure::Time;
use crate::row::Times;

/// The ratios that are printed where both columns are measured.
const RATIOS: [(Column, Column); 6] = [
    (Column::Ours, Column::Fast),
    (Column::Ours, Column::Marked),
    (Column::Second, Column::Ours),
    (Column::Enumeration, Column::Ours),
    (Column::Sat, Column::Ours),
    (Column::First, Column::Ours),
];

/// A number with three digits that count.
pub fn digits(number: f64) -> String {
    let places = (2.0 - number.log10().floor()).clamp(0.0, 12.0) as usize;
    format!("{number:.places$}")
}

/// A time: seconds, what it was stopped after, or a dash where it was left out.
pub fn seconds(time: Time) -> String {
    match time {
        Time::Took(seconds) => digits(seconds),
        Time::Stopped(limit) => format!("> {limit}"),
        Time::Left => "–".to_string(),
    }
}

/// A ratio of two times, or what is known of it.
pub fn ratio(over: Time, under: Time) -> String {
    match (over, under) {
        (Time::Took(over), Time::Took(under)) => digits(over / under),
        (Time::Stopped(over), Time::Took(under)) => format!("> {}", digits(over / under)),
        (Time::Took(over), Time::Stopped(under)) => format!("< {}", digits(over / under)),
        _ => "–".to_string(),
    }
}

/// A table: its labels, its columns, and the labels behind the ratios.
pub struct Table<'a> {
    pub labels: &'a [&'a str],
    pub columns: &'a [Column],
    pub notes: &'a [&'a str],
}

/// One line of a table.
pub fn line(entries: &[String]) -> String {
    format!("| {} |", entries.join(" | "))
}

/// The line below a table's first.
pub fn rule(entries: usize) -> String {
    "|---".repeat(entries) + "|"
}

impl Table<'_> {
    fn ratios(&self) -> impl Iterator<Item = (Column, Column)> + '_ {
        let both = |(over, under): &(Column, Column)| {
            self.columns.contains(over) && self.columns.contains(under)
        };
        RATIOS.into_iter().filter(both)
    }

    /// The first two lines.
    pub fn head(&self) -> String {
        let mut entries: Vec<String> = self.labels.iter().map(|label| label.to_string()).collect();
        for column in self.columns {
            if *column == Column::Sat {
                entries.push("SAT decides, s".to_string());
            }
            entries.push(format!("{}, s", column.name()));
        }
        let ratios = self.ratios();
        entries.extend(ratios.map(|(over, under)| format!("{} / {}", over.name(), under.name())));
        entries.extend(self.notes.iter().map(|note| note.to_string()));
        format!("{}\n{}", line(&entries), rule(entries.len()))
    }

    pub fn row(&self, labels: &[String], times: &Times, notes: &[String]) -> String {
        let mut entries = labels.to_vec();
        for &column in self.columns {
            if column == Column::Sat {
                entries.push(times.decided.map_or("–".to_string(), digits));
            }
            entries.push(seconds(times.of(column)));
        }
        let ratios = self.ratios();
        entries.extend(ratios.map(|(over, under)| ratio(times.of(over), times.of(under))));
        entries.extend_from_slice(notes);
        line(&entries)
    }
}
