//! The table of figures and ratios.

pub struct Row {
    name: String,
    ours: f64,
    nginx: Option<f64>,
    plain: Option<f64>,
}

/// What is wanted of a figure.
pub enum Wanted {
    Nothing,
    /// So much of nginx's figure.
    OfNginx(f64),
    AtLeast(f64),
    AtMost(f64),
}

pub struct Table {
    rows: Vec<(Row, Wanted)>,
}

impl Row {
    pub fn new(name: &str, ours: f64) -> Row {
        Row { name: name.to_string(), ours, nginx: None, plain: None }
    }

    pub fn named(self, name: &str) -> Row {
        Row { name: name.to_string(), ..self }
    }

    pub fn beside_nginx(self, figure: f64) -> Row {
        Row { nginx: Some(figure), ..self }
    }

    pub fn beside_plain(self, figure: f64) -> Row {
        Row { plain: Some(figure), ..self }
    }

    fn meets(&self, wanted: &Wanted) -> bool {
        match wanted {
            Wanted::Nothing => true,
            Wanted::OfNginx(part) => self.nginx.is_some_and(|it| self.ours >= part * it),
            Wanted::AtLeast(least) => self.ours >= *least,
            Wanted::AtMost(most) => self.ours <= *most,
        }
    }
}

impl Table {
    pub fn new() -> Table {
        Table { rows: Vec::new() }
    }

    /// Adds a row, and tells it on standard error at once.
    pub fn add(&mut self, row: Row, wanted: Wanted) {
        eprintln!("{}: {}", row.name, figure(row.ours));
        self.rows.push((row, wanted));
    }

    pub fn is_met(&self) -> bool {
        self.rows.iter().all(|(row, wanted)| row.meets(wanted))
    }

    pub fn print(&self) {
        println!("| Measured | watchcache | nginx | ratio | plain Rust | ratio | wanted | |");
        println!("|---|---|---|---|---|---|---|---|");
        for (row, wanted) in &self.rows {
            let beside = |it: Option<f64>| match it {
                None => " | ".to_string(),
                Some(it) => format!("{} | {:.2}", figure(it), row.ours / it),
            };
            let met = match wanted {
                Wanted::Nothing => "",
                _ if row.meets(wanted) => "met",
                _ => "SHORT",
            };
            let (nginx, plain, wanted) = (beside(row.nginx), beside(row.plain), text(wanted));
            println!("| {} | {} | {nginx} | {plain} | {wanted} | {met} |", row.name, figure(row.ours));
        }
    }
}

fn text(wanted: &Wanted) -> String {
    match wanted {
        Wanted::Nothing => String::new(),
        Wanted::OfNginx(part) => format!("{part} of nginx"),
        Wanted::AtLeast(least) => format!("at least {}", figure(*least)),
        Wanted::AtMost(most) => format!("at most {}", figure(*most)),
    }
}

// Three digits or more, with a comma between thousands.
fn figure(it: f64) -> String {
    if it < 10.0 {
        return format!("{it:.2}");
    }
    let digits = format!("{it:.0}");
    let mut text = String::new();
    for (at, digit) in digits.chars().enumerate() {
        if at > 0 && (digits.len() - at) % 3 == 0 {
            text.push(',');
        }
        text.push(digit);
    }
    text
}
