//! The goals of docs/SPEED.md, and which of them a run meets.

/// A figure of this run beside its goal.
struct Goal {
    name: String,
    figure: f64,
    goal: f64,
    met: bool,
}

#[derive(Default)]
pub struct Goals {
    all: Vec<Goal>,
}

impl Goals {
    pub fn at_least(&mut self, name: &str, figure: f64, goal: f64) {
        self.all.push(Goal { name: name.to_owned(), figure, goal, met: figure >= goal });
    }

    pub fn at_most(&mut self, name: &str, figure: f64, goal: f64) {
        self.all.push(Goal { name: name.to_owned(), figure, goal, met: figure <= goal });
    }

    /// A large text: how many times the Rust's speed, what part of {fmt}'s time, and how much longer twice the text takes.
    pub fn large(&mut self, name: &str, rust: f64, cpp: Option<f64>, doubled: f64) {
        let times = match name {
            "literal text" => 20.0,
            "names with ø and 日" => 1.8,
            "errors at the back" => 10.0,
            "errors at the front" => 3.0,
            _ => 5.0,
        };
        self.at_least(&format!("{name}, the Rust : this"), rust, times);
        if name == "template text" {
            self.beside(name, cpp);
        }
        self.at_most(&format!("{name}, twice the text"), doubled, 2.1);
    }

    /// A short template.
    pub fn short(&mut self, name: &str, rust: f64, cpp: Option<f64>) {
        self.at_least(&format!("{name}, the Rust : this"), rust, 5.0);
        self.beside(name, cpp);
    }

    fn beside(&mut self, name: &str, cpp: Option<f64>) {
        if let Some(part) = cpp {
            self.at_most(&format!("{name}, this : {{fmt}}"), part, 0.75);
        }
    }

    pub fn print(&self) {
        println!();
        println!("| goal | asked | this run | met |");
        println!("|---|---|---|---|");
        for goal in &self.all {
            println!("| {} | {:.2} | {:.2} | {} |", goal.name, goal.goal, goal.figure, if goal.met { "yes" } else { "no" });
        }
        let met = self.all.iter().filter(|goal| goal.met).count();
        println!();
        println!("{met} of {} goals are met", self.all.len());
    }
}
