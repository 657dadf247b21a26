//! Numbers of several rounds, and tables of them.

/// What the rounds gave, in the order in which they were run.
#[derive(Default, Clone)]
pub struct Rounds(pub Vec<f64>);

impl Rounds {
    pub fn least(&self) -> f64 {
        self.0.iter().copied().fold(f64::INFINITY, f64::min)
    }

    pub fn median(&self) -> f64 {
        let mut all = self.0.clone();
        all.sort_by(f64::total_cmp);
        let n = all.len();
        (all[(n - 1) / 2] + all[n / 2]) / 2.0
    }

    /// The ratio to another, round by round.
    pub fn over(&self, other: &Rounds) -> Rounds {
        Rounds(self.0.iter().zip(&other.0).map(|(a, b)| a / b).collect())
    }

    /// The median, and the least in brackets.
    pub fn told(&self, digits: usize) -> String {
        format!("{:.digits$} ({:.digits$})", self.median(), self.least())
    }
}

/// A table in Markdown.
pub struct Table(String);

impl Table {
    pub fn new(head: &[&str]) -> Table {
        let mut t = Table(String::new());
        t.line(head.iter().map(|s| s.to_string()));
        t.line(head.iter().enumerate().map(|(k, _)| if k == 0 { "---" } else { "---:" }.to_string()));
        t
    }

    pub fn line(&mut self, cells: impl IntoIterator<Item = String>) {
        let cells: Vec<String> = cells.into_iter().collect();
        let line = format!("| {} |\n", cells.join(" | "));
        eprint!("{line}");
        self.0 += &line;
    }

    pub fn text(self) -> String {
        self.0
    }
}

/// A number with commas.
pub fn commas(n: usize) -> String {
    let digits = n.to_string();
    let mut out = String::new();
    for (k, d) in digits.chars().enumerate() {
        if k > 0 && (digits.len() - k) % 3 == 0 {
            out.push(',');
        }
        out.push(d);
    }
    out
}
