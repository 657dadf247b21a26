//! Stands in for bedder_bed.rs, which needs a BED crate. `Never` has no values, so no `Position::Bed` can exist
//! and none of these functions can be called; position.rs only has to compile.

#[derive(Debug, Clone)]
pub enum Never {}

#[derive(Debug, Clone)]
pub struct BedRecord(pub Never);

#[allow(dead_code)]
#[derive(Debug)]
pub enum BedValue {
    Integer(i64),
    Float(f64),
    String(String),
}

impl BedRecord {
    pub fn chrom(&self) -> &str {
        match self.0 {}
    }
    pub fn start(&self) -> u64 {
        match self.0 {}
    }
    pub fn stop(&self) -> u64 {
        match self.0 {}
    }
    pub fn set_start(&mut self, _: u64) {
        match self.0 {}
    }
    pub fn set_stop(&mut self, _: u64) {
        match self.0 {}
    }
}

#[allow(dead_code)]
impl Never {
    pub fn name(&self) -> Option<&str> {
        match *self {}
    }
    pub fn start(&self) -> u64 {
        match *self {}
    }
    pub fn end(&self) -> u64 {
        match *self {}
    }
    pub fn score(&self) -> Option<f64> {
        match *self {}
    }
    pub fn other_fields(&self) -> &[BedValue] {
        match *self {}
    }
}
