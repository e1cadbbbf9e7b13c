//! Cases by category and outcome, and the differences.

use oracle::strict::{BYTES_OVER, OVERSIZED};

pub struct Tally {
    title: &'static str,
    rows: Vec<Row>,
    pub differences: Vec<String>,
}

/// A case's answer in each manner of reading; of calls without a manner the same twice.
#[derive(Clone, Copy)]
pub struct Answers {
    pub lenient: u32,
    pub strict: u32,
}

impl From<u32> for Answers {
    fn from(answer: u32) -> Answers {
        Answers { lenient: answer, strict: answer }
    }
}

#[derive(Default)]
struct Row {
    label: String,
    /// By answer in the lenient manner, 0 for accepted, else the refusal; then 16 and 17, which the strict one alone gives.
    columns: [u64; 21],
    differences: u64,
}

/// Columns of the lenient manner's answers: every case is in one of them.
const LENIENT: usize = 19;

fn heading(column: usize) -> String {
    match column {
        0 => "accepted".to_owned(),
        LENIENT.. => format!("strictly {}", column - LENIENT + BYTES_OVER as usize),
        refusal => refusal.to_string(),
    }
}

const SHOWN: usize = 5;

impl Tally {
    /// Rows appear in the order in which they are first named.
    pub fn new(title: &'static str, labels: &[&str]) -> Self {
        let mut tally = Tally { title, rows: Vec::new(), differences: Vec::new() };
        labels.iter().for_each(|label| {
            tally.row(label);
        });
        tally
    }

    fn row(&mut self, label: &str) -> &mut Row {
        let i = self.rows.iter().position(|row| row.label == label).unwrap_or_else(|| {
            self.rows.push(Row { label: label.to_owned(), ..Row::default() });
            self.rows.len() - 1
        });
        &mut self.rows[i]
    }

    /// Counts a case; shown says what its input is, should it differ.
    pub fn count(&mut self, label: &str, checked: Result<impl Into<Answers>, String>, shown: impl FnOnce() -> String) {
        match checked {
            Ok(answers) => self.row(label).add(answers.into()),
            Err(difference) => {
                self.row(label).differences += 1;
                self.differences.push(if self.differences.len() < SHOWN {
                    format!("{label}: {difference}\n    {}", shown())
                } else {
                    String::new()
                });
            }
        }
    }

    pub fn cases(&self) -> u64 {
        self.rows.iter().map(Row::cases).sum()
    }

    pub fn print(&self) {
        let mut total = Row { label: "all".to_owned(), ..Row::default() };
        for row in &self.rows {
            total.columns.iter_mut().zip(row.columns).for_each(|(sum, cases)| *sum += cases);
            total.differences += row.differences;
        }
        let shown: Vec<usize> = (0..total.columns.len()).filter(|&i| total.columns[i] > 0).collect();
        println!("{}", self.title);
        print!("  {:<44}{:>10}", "", "cases");
        shown.iter().for_each(|&i| print!("{:>13}", heading(i)));
        println!("{:>13}", "differences");
        self.rows.iter().chain([&total]).for_each(|row| row.print(&shown));
        for difference in self.differences.iter().take(SHOWN) {
            println!("  DIFFERENCE {difference}");
        }
    }
}

impl Row {
    fn add(&mut self, answers: Answers) {
        self.columns[answers.lenient as usize] += 1;
        if let BYTES_OVER | OVERSIZED = answers.strict {
            self.columns[LENIENT + (answers.strict - BYTES_OVER) as usize] += 1;
        }
    }

    fn cases(&self) -> u64 {
        self.columns[..LENIENT].iter().sum::<u64>() + self.differences
    }

    fn print(&self, shown: &[usize]) {
        print!("  {:<44}{:>10}", self.label, self.cases());
        shown.iter().for_each(|&i| print!("{:>13}", self.columns[i]));
        println!("{:>13}", self.differences);
    }
}
