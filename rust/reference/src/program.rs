//! The program header of the DXIL part, and its stage beside that of PSV0.

use crate::{number2, number4, open, refusal, Opening, Refusal};

/// The length of the program header with the bitcode header in it.
const HEADERS: usize = 24;

/// Where the bitcode header starts.
const BITCODE_HEADER: usize = 8;

/// The fields of DXIL data and its bitcode. Only the mark and the bitcode's end
/// are judged; every field is shown as it stands in the file.
#[derive(Clone, Copy, Debug, PartialEq, Eq)]
pub struct Program<'a> {
    pub major: u32,
    pub minor: u32,
    /// A number of two bytes.
    pub stage: u32,
    /// The size in 4-byte units.
    pub words: u32,
    pub bitcode_major: u32,
    pub bitcode_minor: u32,
    /// From the bitcode header's start, and so possibly inside that header.
    pub bitcode_offset: u32,
    pub bitcode_size: u32,
    /// Where the bitcode starts within the DXIL data.
    pub bitcode_at: usize,
    pub bitcode: &'a [u8],
}

/// The stage of the program header beside that of PSV0.
#[derive(Clone, Copy, Debug, PartialEq, Eq)]
pub enum Stages {
    Equal,
    Different,
    /// PSV0's is unset.
    Unset,
}

/// The report on a container's program.
#[derive(Clone, Copy, Debug, PartialEq, Eq)]
pub struct ProgramReport<'a> {
    /// Its bitcode is a view of the container.
    pub program: Program<'a>,
    /// Where the bitcode starts within the container.
    pub bitcode_at: usize,
    /// The stage that PSV0 shows at the edition.
    pub psv0_stage: Option<u32>,
    pub stages: Stages,
}

/// The header and bitcode of DXIL data alone: 40 to 42.
pub fn program(data: &[u8]) -> Result<Program<'_>, Refusal> {
    if data.len() < HEADERS {
        return Err(refusal(40));
    }
    if &data[BITCODE_HEADER..BITCODE_HEADER + 4] != b"DXIL" {
        return Err(refusal(41));
    }
    let bitcode_offset = number4(data, 16);
    let bitcode_size = number4(data, 20);
    // 32-bit numbers held in 64 bits, so the sum is exact.
    let start = BITCODE_HEADER as u64 + u64::from(bitcode_offset);
    let end = start + u64::from(bitcode_size);
    if end > data.len() as u64 {
        return Err(refusal(42));
    }
    let byte = |at: usize| u32::from(data[at]);
    Ok(Program {
        major: byte(0) >> 4,
        minor: byte(0) & 15,
        stage: number2(data, 2),
        words: number4(data, 4),
        bitcode_major: byte(13),
        bitcode_minor: byte(12),
        bitcode_offset,
        bitcode_size,
        bitcode_at: start as usize,
        bitcode: &data[start as usize..end as usize],
    })
}

/// The report on a container: what opening it refuses (25, 1 to 24), then 40
/// to 42.
pub fn program_report(bytes: &[u8], edition: usize) -> Result<ProgramReport<'_>, Refusal> {
    report(&open(bytes, edition)?)
}

/// The report on a container that was opened.
pub(crate) fn report<'a>(opening: &Opening<'a>) -> Result<ProgramReport<'a>, Refusal> {
    let (i, data) = opening.part(*b"DXIL")?;
    let program = program(data)?;
    let psv0_stage = opening.runtime.stage;
    let stages = match psv0_stage {
        None => Stages::Unset,
        Some(stage) if stage == program.stage => Stages::Equal,
        Some(_) => Stages::Different,
    };
    // The data follow the part's header of 8 bytes.
    let bitcode_at = opening.parts[i].offset + 8 + program.bitcode_at;
    Ok(ProgramReport { program, bitcode_at, psv0_stage, stages })
}
