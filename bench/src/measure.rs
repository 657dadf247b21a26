//! All measurements, in order, and the document that holds them.

use crate::count::instructions;
use crate::files::{tools, Tool};
use crate::input::{Recipe, Size, RECIPES};
use crate::sweeps::{Bench, Who};
use crate::table::{commas, Rounds, Table};
use std::path::Path;

/// What to measure, and where files go.
pub struct Plan<'a> {
    pub size: Size,
    pub rounds: usize,
    /// For inputs, listings and counts.
    pub folder: &'a str,
}

/// By what a ratio is taken.
#[derive(Clone, Copy, PartialEq)]
enum By {
    Time,
    Instructions,
}

/// What a bar asks of a ratio.
#[derive(Clone, Copy)]
enum Limit {
    Most(f64),
    Least(f64),
}

use By::{Instructions, Time};
use Limit::{Least, Most};

/// The ratios of the sweep alone. Ours is by batches where nothing else is said.
const RATIOS: [&str; 3] = ["ours / plain", "a base a call / plain", "the Rust / ours"];
const FILES: &str = "bedtools / ours";

/// The bars: the ratio, the input, by what, and what is asked.
const BARS: [(&str, &str, By, Limit); 12] = [
    (RATIOS[0], "plain", Time, Most(1.0)),
    (RATIOS[0], "nested", Time, Most(1.0)),
    (RATIOS[0], "eight", Time, Most(1.0)),
    (RATIOS[0], "plain", Instructions, Most(1.25)),
    (RATIOS[0], "nested", Instructions, Most(1.35)),
    (RATIOS[0], "one", Instructions, Most(1.7)),
    (RATIOS[0], "eight", Instructions, Most(0.9)),
    (RATIOS[1], "plain", Instructions, Most(2.5)),
    (RATIOS[2], "plain", Time, Least(6.0)),
    (RATIOS[2], "nested", Time, Least(6.0)),
    (FILES, "plain", Time, Least(2.0)),
    (FILES, "nested", Time, Least(2.0)),
];

/// The ratios that were reached.
#[derive(Default)]
struct Reached(Vec<(&'static str, &'static str, By, f64)>);

impl Reached {
    fn add(&mut self, ratios: [f64; 3], input: &'static str, by: By) {
        self.0.extend(RATIOS.into_iter().zip(ratios).map(|(what, ratio)| (what, input, by, ratio)));
    }

    fn at(&self, bar: (&str, &str, By, Limit)) -> f64 {
        let found = self.0.iter().find(|r| (r.0, r.1, r.2) == (bar.0, bar.1, bar.2));
        found.unwrap_or_else(|| panic!("{} of {} is measured", bar.0, bar.1)).3
    }

    /// The bars as a table.
    fn told(&self) -> String {
        let mut table = Table::new(&["ratio", "input", "by", "bar", "reached", "it is"]);
        for bar in BARS {
            let ratio = self.at(bar);
            let (asked, met) = match bar.3 {
                Most(most) => (format!("at most {most}"), ratio <= most),
                Least(least) => (format!("at least {least}"), ratio >= least),
            };
            let by = if bar.2 == Time { "time" } else { "instructions" };
            let met = if met { "met" } else { "not met" };
            table.line([bar.0.into(), bar.1.into(), by.into(), asked, format!("{ratio:.2}"), met.into()]);
        }
        table.text()
    }
}

/// The document's name for each of its places, and what stands there.
pub type Places = Vec<(&'static str, String)>;

impl Plan<'_> {
    pub fn all(&self) -> Places {
        let mut reached = Reached::default();
        let times = self.sweeps(&mut reached);
        let counts = self.counts(&mut reached);
        let growth = self.growth();
        let (costs, lines) = self.files(&mut reached);
        vec![
            ("records", commas(self.size.records)),
            ("bases", commas(self.size.bases)),
            ("rounds", self.rounds.to_string()),
            ("file rounds", self.file_rounds().to_string()),
            ("bars", reached.told()),
            ("sweeps", times),
            ("counts", counts),
            ("growth", growth),
            ("files", costs),
            ("lines", lines),
        ]
    }

    /// Each in turn, round by round: nanoseconds a record.
    fn times<const N: usize>(&self, bench: &Bench, all: [Who; N]) -> [Rounds; N] {
        let mut times = [(); N].map(|_| Rounds::default());
        for _ in 0..self.rounds {
            for (who, rounds) in all.into_iter().zip(&mut times) {
                rounds.0.push(bench.time(who));
            }
        }
        times
    }

    fn sweeps(&self, reached: &mut Reached) -> String {
        let cost = ["ours, ns a record", "ours, a base a call", "plain", "the Rust"];
        let mut table = Table::new(&[&["input", "found"][..], &cost, &RATIOS].concat());
        for recipe in RECIPES {
            let bench = Bench::new(recipe.make(self.size));
            let found = bench.check();
            let [ours, single, plain, rust] = self.times(&bench, Who::ALL);
            let ratios = [ours.over(&plain), single.over(&plain), rust.over(&ours)].map(|r| r.median());
            reached.add(ratios, recipe.name, Time);
            let head = [recipe.name.to_string(), commas(found)];
            let cells = [ours, single, plain, rust].map(|r| r.told(1));
            table.line(head.into_iter().chain(cells).chain(ratios.map(|r| format!("{r:.2}"))));
        }
        table.text()
    }

    /// Instructions a record.
    fn count(&self, who: Who, recipe: Recipe, times: usize) -> f64 {
        let size = self.size.times(times);
        instructions(self.folder, who, recipe.name, &size.words()) / size.records as f64
    }

    fn counts(&self, reached: &mut Reached) -> String {
        let cost = ["ours, instructions a record", "ours, a base a call", "plain", "the Rust"];
        let mut table = Table::new(&[&["input"][..], &cost, &RATIOS].concat());
        for recipe in RECIPES {
            let [ours, single, plain, rust] = Who::ALL.map(|who| self.count(who, recipe, 1));
            let ratios = [ours / plain, single / plain, rust / ours];
            reached.add(ratios, recipe.name, Instructions);
            let cells = [ours, single, plain, rust].map(|n| format!("{n:.1}"));
            let ratios = ratios.map(|r| format!("{r:.2}"));
            table.line([recipe.name.to_string()].into_iter().chain(cells).chain(ratios));
        }
        table.text()
    }

    /// The same at one, two and four times the rows.
    fn growth(&self) -> String {
        let head = ["input", "records", "ours, instructions a record", "plain", "ours, ns a record", "plain"];
        let mut table = Table::new(&head);
        let both = [Who::Ours, Who::Plain];
        for recipe in RECIPES.into_iter().filter(Recipe::is_filed) {
            for times in [1, 2, 4] {
                let bench = Bench::new(recipe.make(self.size.times(times)));
                let counts = both.map(|who| format!("{:.1}", self.count(who, recipe, times)));
                let spent = self.times(&bench, both).map(|r| r.told(1));
                let head = [recipe.name.to_string(), commas(bench.input.records())];
                table.line(head.into_iter().chain(counts).chain(spent));
            }
        }
        table.text()
    }

    /// The table of the commands, and their lines.
    fn files(&self, reached: &mut Reached) -> (String, String) {
        let head = ["input", "command", "seconds", "times the first", "processor seconds", "times the first"];
        let mut table = Table::new(&head);
        let mut lines = Vec::new();
        for recipe in RECIPES.into_iter().filter(Recipe::is_filed) {
            let folder = format!("{}/{}", self.folder, recipe.name);
            recipe.make(self.size).write(Path::new(&folder)).expect("the input's files can be written");
            let tools = tools(&folder, recipe.streams);
            let found: Vec<usize> = tools.iter().map(Tool::found).collect();
            assert!(found.iter().all(|n| *n == found[0]), "the commands find {found:?} pairs of {}", recipe.name);
            let (walls, used) = self.costs(&tools);
            for (k, tool) in tools.iter().enumerate() {
                let ratio = walls[k].over(&walls[0]).median();
                let worked = used[k].over(&used[0]).median();
                let cells = [walls[k].told(2), format!("{ratio:.2}"), used[k].told(2), format!("{worked:.2}")];
                table.line([recipe.name.to_string(), tool.name.to_string()].into_iter().chain(cells));
                if tool.name.starts_with("bedtools") {
                    reached.0.push((FILES, recipe.name, Time, ratio));
                }
            }
            lines = tools.iter().map(|t| format!("    {}", t.line.replace(&format!("{folder}/"), ""))).collect();
        }
        (table.text(), lines.join("\n"))
    }

    /// Whole commands take longer, and fewer rounds will do.
    fn file_rounds(&self) -> usize {
        self.rounds.min(7)
    }

    /// Each command in turn, round by round: seconds on the wall, and of processor time.
    fn costs(&self, tools: &[Tool]) -> (Vec<Rounds>, Vec<Rounds>) {
        let mut walls = vec![Rounds::default(); tools.len()];
        let mut used = walls.clone();
        for _ in 0..self.file_rounds() {
            for (k, tool) in tools.iter().enumerate() {
                let cost = tool.cost();
                walls[k].0.push(cost.wall);
                used[k].0.push(cost.processor);
            }
        }
        (walls, used)
    }
}
