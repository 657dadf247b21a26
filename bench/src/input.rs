//! Seeded inputs over the human chromosomes, and their BED files.

/// A record or a base; its order is the merged one: chromosome, start, stop.
pub use cedarlash::Base as Row;
use std::io::{BufWriter, Write};
use std::path::Path;

/// The chromosomes of GRCh38 with their lengths, by name in byte order, which every tool of part (b) takes.
pub const GENOME: [(&str, u64); 24] = [
    ("chr1", 248_956_422),
    ("chr10", 133_797_422),
    ("chr11", 135_086_622),
    ("chr12", 133_275_309),
    ("chr13", 114_364_328),
    ("chr14", 107_043_718),
    ("chr15", 101_991_189),
    ("chr16", 90_338_345),
    ("chr17", 83_257_441),
    ("chr18", 80_373_285),
    ("chr19", 58_617_616),
    ("chr2", 242_193_529),
    ("chr20", 64_444_167),
    ("chr21", 46_709_983),
    ("chr22", 50_818_468),
    ("chr3", 198_295_559),
    ("chr4", 190_214_555),
    ("chr5", 181_538_259),
    ("chr6", 170_805_979),
    ("chr7", 159_345_973),
    ("chr8", 145_138_636),
    ("chr9", 138_394_717),
    ("chrX", 156_040_895),
    ("chrY", 57_227_415),
];

/// What an input is made from.
#[derive(Clone, Copy)]
pub struct Recipe {
    pub name: &'static str,
    pub streams: usize,
    /// Of so many records one is long, 10,000 to 1,000,000; 0 for none.
    pub long_in: u64,
}

pub const RECIPES: [Recipe; 4] = [
    Recipe { name: "plain", streams: 2, long_in: 0 },
    Recipe { name: "nested", streams: 2, long_in: 20 },
    Recipe { name: "one", streams: 1, long_in: 0 },
    Recipe { name: "eight", streams: 8, long_in: 0 },
];

/// How much of it: records in all, bases, and by how much every length is divided.
#[derive(Clone, Copy)]
pub struct Size {
    pub records: usize,
    pub bases: usize,
    pub shrink: u64,
}

impl Size {
    /// So many times the records and bases, shorter by the same factor: as many overlap and wait as before.
    pub fn times(self, k: usize) -> Size {
        Size { records: self.records * k, bases: self.bases * k, shrink: self.shrink * k as u64 }
    }

    /// The three numbers as one word, and back.
    pub fn words(self) -> String {
        format!("{},{},{}", self.records, self.bases, self.shrink)
    }

    pub fn of_words(words: &str) -> Option<Size> {
        let numbers: Vec<u64> = words.split(',').map_while(|w| w.parse().ok()).collect();
        let [records, bases, shrink] = numbers[..] else { return None };
        Some(Size { records: records as usize, bases: bases as usize, shrink })
    }
}

/// The chromosome list as a text.
pub fn list() -> String {
    GENOME.iter().map(|(name, length)| format!("{name}\t{length}\n")).collect()
}

pub struct Input {
    pub streams: Vec<Vec<Row>>,
    pub bases: Vec<Row>,
}

/// Numbers from a seed (splitmix64).
struct Dice(u64);

impl Dice {
    fn next(&mut self) -> u64 {
        self.0 = self.0.wrapping_add(0x9e37_79b9_7f4a_7c15);
        let mut z = self.0;
        z = (z ^ (z >> 30)).wrapping_mul(0xbf58_476d_1ce4_e5b9);
        z = (z ^ (z >> 27)).wrapping_mul(0x94d0_49bb_1331_11eb);
        z ^ (z >> 31)
    }

    /// From `low` up to `high`, both among them.
    fn within(&mut self, low: u64, high: u64) -> u64 {
        low + ((self.next() as u128 * (high - low + 1) as u128) >> 64) as u64
    }

    /// A row of this length on a chromosome, each place of the genome as likely; it ends with its chromosome.
    fn row(&mut self, length: u64) -> Row {
        let mut at = self.within(0, GENOME.iter().map(|g| g.1).sum::<u64>() - 1);
        let mut chrom = 0;
        while GENOME[chrom].1 <= at {
            at -= GENOME[chrom].1;
            chrom += 1;
        }
        Row { chrom: chrom as u64, start: at, stop: (at + length).min(GENOME[chrom].1) }
    }

    fn length(&mut self, long_in: u64, shrink: u64) -> u64 {
        let length = if long_in > 0 && self.within(1, long_in) == 1 {
            self.within(10_000, 1_000_000)
        } else {
            self.within(100, 2_000)
        };
        length / shrink
    }

    fn rows(&mut self, n: usize, long_in: u64, shrink: u64) -> Vec<Row> {
        let mut rows: Vec<Row> = Vec::with_capacity(n);
        for _ in 0..n {
            let length = self.length(long_in, shrink);
            rows.push(self.row(length));
        }
        rows.sort_unstable();
        rows
    }
}

impl Recipe {
    pub fn named(name: &str) -> Recipe {
        *RECIPES.iter().find(|r| r.name == name).unwrap_or_else(|| panic!("no input is called {name}"))
    }

    /// Whether it is also measured with more rows, and from files to text.
    pub fn is_filed(&self) -> bool {
        ["plain", "nested"].contains(&self.name)
    }

    /// The input of this size: the same for the same recipe and size, everywhere.
    pub fn make(&self, size: Size) -> Input {
        let mut dice = Dice(20_241_115);
        let bases = dice.rows(size.bases, 0, size.shrink);
        let each = size.records / self.streams;
        let streams = (0..self.streams).map(|_| dice.rows(each, self.long_in, size.shrink)).collect();
        Input { streams, bases }
    }
}

impl Input {
    pub fn records(&self) -> usize {
        self.streams.iter().map(|s| s.len()).sum()
    }

    /// Writes `genome.txt`, `bases.bed` and `stream0.bed` onwards to a folder.
    pub fn write(&self, folder: &Path) -> std::io::Result<()> {
        std::fs::create_dir_all(folder)?;
        std::fs::write(folder.join("genome.txt"), list())?;
        write_rows(&folder.join("bases.bed"), &self.bases)?;
        for (k, rows) in self.streams.iter().enumerate() {
            write_rows(&folder.join(format!("stream{k}.bed")), rows)?;
        }
        Ok(())
    }
}

fn write_rows(path: &Path, rows: &[Row]) -> std::io::Result<()> {
    let mut out = BufWriter::new(std::fs::File::create(path)?);
    for r in rows {
        writeln!(out, "{}\t{}\t{}", GENOME[r.chrom as usize].0, r.start, r.stop)?;
    }
    out.flush()
}
