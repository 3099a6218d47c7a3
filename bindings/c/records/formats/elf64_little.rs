//! The file header and the program header of ELF64 files, System V ABI, with the low byte of each
//! number first, as on x86-64. Files with the high byte first have the same fields.

/// The file header. It begins with the constants 7F 45 4C 46, 2 for 64 bits, and 1 for the endian.
#[deku(endian = "little", magic = b"\x7fELF\x02\x01")]
struct ElfHeaderLittle {
    /// The version of the first 16 bytes: 1.
    ident_version: u8,
    /// The operating system: 0 System V, 3 Linux.
    abi: u8,
    /// The version of its binary interface.
    abi_version: u8,
    /// Bytes without a meaning: 0.
    padding: [u8; 7],
    /// 1 relocatable, 2 executable, 3 shared, 4 core.
    kind: u16,
    /// The processor: 21 PowerPC, 62 x86-64, 183 AArch64, 243 RISC-V.
    machine: u16,
    /// The version of the format: 1.
    version: u32,
    /// The address at which the program starts, or 0.
    entry: u64,
    /// Where the program headers are in the file, in bytes, or 0.
    segments_at: u64,
    /// Where the section headers are in the file, in bytes, or 0.
    sections_at: u64,
    /// Flags for the processor.
    flags: u32,
    /// The number of bytes of this header: 64.
    header_size: u16,
    /// The number of bytes of a program header: 56, or 0 if there is none.
    segment_size: u16,
    /// The number of program headers.
    segment_count: u16,
    /// The number of bytes of a section header: 64, or 0 if there is none.
    section_size: u16,
    /// The number of section headers.
    section_count: u16,
    /// The index of the section with the names of the sections.
    names_section: u16,
}

/// A program header: which part of the file is loaded, and where.
#[deku(endian = "little")]
struct ElfSegmentLittle {
    /// 1 load, 2 dynamic, 3 interpreter, 4 note, 6 this table.
    kind: u32,
    /// The sum of 1 execute, 2 write, 4 read.
    flags: u32,
    /// Where it is in the file, in bytes.
    offset: u64,
    /// The address at which it is loaded.
    address: u64,
    /// The physical address, on machines that use it.
    physical: u64,
    /// The number of bytes in the file.
    file_size: u64,
    /// The number of bytes in memory.
    memory_size: u64,
    /// The alignment in bytes: a power of two, or 0.
    alignment: u64,
}
