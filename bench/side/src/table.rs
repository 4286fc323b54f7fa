//! The tables: ratios first.

pub fn head() {
    println!("| proved / plain, in time | what | proved | plain | |");
    println!("|---|---|---|---|---|");
}

/// A row of two times, the proved one first. The words say the figures.
pub fn row(what: &str, [proved, plain]: [f64; 2], say: impl Fn(f64) -> String, note: &str) {
    println!("| {:.2} | {what} | {} | {} | {note} |", proved / plain, say(proved), say(plain));
}

/// The table by kinds has three columns for each site.
pub fn head_of_kinds(sites: &[&str]) {
    let columns: Vec<String> = sites.iter().map(|site| format!("{site}: ratio | proved ns | plain ns")).collect();
    println!("| kind | {} |", columns.join(" | "));
    println!("|---|{}", "---|".repeat(3 * sites.len()));
}

/// A row of the table by kinds.
pub struct Row {
    cells: Vec<String>,
}

impl Row {
    pub fn of(kind: u32) -> Row {
        Row { cells: vec![kind.to_string()] }
    }

    pub fn add(&mut self, [proved, plain]: [f64; 2]) {
        self.cells.push(format!("{:.2} | {proved:.1} | {plain:.1}", proved / plain));
    }

    pub fn print(&self) {
        println!("| {} |", self.cells.join(" | "));
    }
}
