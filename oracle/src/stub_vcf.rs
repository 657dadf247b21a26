//! Stands in for bedder_vcf.rs, which needs a VCF library. `Never` has no values, so no `Position::Vcf` can exist.

#[derive(Debug, Clone)]
pub enum Never {}

#[derive(Debug, Clone)]
pub struct BedderRecord {
    pub record: Never,
}

impl BedderRecord {
    pub fn chrom(&self) -> &str {
        match self.record {}
    }
}

impl Never {
    pub fn pos(&self) -> i64 {
        match *self {}
    }
    pub fn end(&self) -> i64 {
        match *self {}
    }
    pub fn set_pos(&mut self, _: i64) {
        match *self {}
    }
}
