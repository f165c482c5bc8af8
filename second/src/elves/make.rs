//! ELF files, made byte by byte.

/// Places of the file header's fields.
pub const TYPE: usize = 16;
pub const MACHINE: usize = 18;
pub const ENTRY: usize = 24;
pub const TABLE: usize = 28;
pub const SECTIONS: usize = 32;
pub const HEADER_SIZE: usize = 42;
pub const HEADERS: usize = 44;
pub const SECTION_SIZE: usize = 46;
pub const SECTION_COUNT: usize = 48;

/// Places of a program header's fields.
pub const KIND: usize = 0;
pub const OFFSET: usize = 4;
pub const VADDR: usize = 8;
pub const PADDR: usize = 12;
pub const FILESZ: usize = 16;
pub const MEMSZ: usize = 20;
pub const FLAGS: usize = 24;

/// Types of program headers.
pub const LOAD: u32 = 1;
pub const NOTE: u32 = 4;
pub const REGINFO: u32 = 0x7000_0000;
pub const RTPROC: u32 = 0x7000_0001;
pub const OPTIONS: u32 = 0x7000_0002;
pub const ABIFLAGS: u32 = 0x7000_0003;

/// Flags of program headers.
pub const READ: u32 = 4;
pub const WRITE: u32 = 6;
pub const CODE: u32 = 5;
pub const ALL: u32 = 7;

/// A program header and the bytes it names.
#[derive(Clone, Debug)]
pub struct Header {
    pub kind: u32,
    pub vaddr: u32,
    pub bytes: Vec<u8>,
    pub memsz: u32,
    pub flags: u32,
}

/// One entry of the table of symbols.
#[derive(Clone, Debug)]
pub struct Symbol {
    pub name: Vec<u8>,
    pub value: u32,
    pub info: u8,
    pub section: u16,
}

/// A file to be made.
#[derive(Clone, Debug)]
pub struct Elf {
    pub entry: u32,
    pub headers: Vec<Header>,
    pub symbols: Vec<Symbol>,
}

/// Gives a header that is loaded, of some bytes and zeros up to its size in memory.
pub fn load(vaddr: u32, bytes: Vec<u8>, memsz: u32, flags: u32) -> Header {
    Header { kind: LOAD, vaddr, bytes, memsz, flags }
}

/// Gives a note, which has no bytes of its own in the file.
pub fn note(kind: u32, vaddr: u32, memsz: u32) -> Header {
    Header { kind, ..load(vaddr, Vec::new(), memsz, READ) }
}

/// Gives bytes that differ from their neighbours and, by a tag, from others; few of them are zero.
pub fn marks(tag: u32, length: u32) -> Vec<u8> {
    (0..length).map(|at| (at * 7 + (at >> 8) * 13 + (tag & 0xff) * 101 + 1) as u8).collect()
}

/// Gives bytes that are zero but at their ends and around the ends of pages.
pub fn sparse(tag: u32, length: u32) -> Vec<u8> {
    let mut bytes = marks(tag, length);
    for (at, byte) in bytes.iter_mut().enumerate() {
        if (8..4088).contains(&(at % 4096)) && at + 8 < length as usize {
            *byte = 0;
        }
    }
    bytes
}

/// Writes two bytes over a place of a file.
pub fn put16(file: &mut [u8], at: usize, value: u32) {
    file[at..at + 2].copy_from_slice(&(value as u16).to_be_bytes());
}

/// Writes four bytes over a place of a file.
pub fn put32(file: &mut [u8], at: usize, value: u32) {
    file[at..at + 4].copy_from_slice(&value.to_be_bytes());
}

/// Gives the place of a program header in a file as it is made here.
pub fn header_at(i: usize) -> usize {
    52 + 32 * i
}

/// Appends words, big-endian.
fn push(file: &mut Vec<u8>, words: &[u32]) {
    for word in words {
        file.extend_from_slice(&word.to_be_bytes());
    }
}

impl Elf {
    /// Gives a file with its entry point where its first header begins.
    pub fn of(headers: Vec<Header>) -> Elf {
        Elf { entry: headers[0].vaddr, headers, symbols: Vec::new() }
    }

    /// Gives the same with an entry point.
    pub fn entered(self, entry: u32) -> Elf {
        Elf { entry, ..self }
    }

    /// Gives the bytes of the file: header, program headers, what they name, then symbols.
    pub fn bytes(&self) -> Vec<u8> {
        let mut file = b"\x7fELF\x01\x02\x01".to_vec();
        file.resize(52, 0);
        put16(&mut file, TYPE, 2);
        put16(&mut file, MACHINE, 8);
        put32(&mut file, 20, 1);
        put32(&mut file, ENTRY, self.entry);
        put32(&mut file, TABLE, 52);
        put16(&mut file, 40, 52);
        put16(&mut file, HEADER_SIZE, 32);
        put16(&mut file, HEADERS, self.headers.len() as u32);
        put16(&mut file, SECTION_SIZE, 40);
        let mut offset = header_at(self.headers.len()) as u32;
        for header in &self.headers {
            let size = header.bytes.len() as u32;
            let (vaddr, memsz) = (header.vaddr, header.memsz);
            push(&mut file, &[header.kind, offset, vaddr, vaddr, size, memsz, header.flags, 4]);
            offset += size;
        }
        for header in &self.headers {
            file.extend_from_slice(&header.bytes);
        }
        if !self.symbols.is_empty() {
            self.push_symbols(&mut file);
        }
        file
    }

    /// Appends the symbols, their names and the section headers.
    fn push_symbols(&self, file: &mut Vec<u8>) {
        let symbols = file.len() as u32;
        let mut names = vec![0];
        push(file, &[0; 4]);
        for symbol in &self.symbols {
            push(file, &[names.len() as u32, symbol.value, 0]);
            push(file, &[(symbol.info as u32) << 24 | symbol.section as u32]);
            names.extend_from_slice(&symbol.name);
            names.push(0);
        }
        let size = file.len() as u32 - symbols;
        let strings = file.len() as u32;
        file.extend_from_slice(&names);
        let sections = file.len() as u32;
        push(file, &[0; 10]);
        push(file, &[1, 1, 6, self.entry, header_at(self.headers.len()) as u32, 4, 0, 0, 4, 0]);
        push(file, &[1, 2, 0, 0, symbols, size, 3, 1, 4, 16]);
        push(file, &[1, 3, 0, 0, strings, names.len() as u32, 0, 0, 1, 0]);
        put32(file, SECTIONS, sections);
        put16(file, SECTION_COUNT, 4);
        put16(file, 50, 3);
    }
}

/// Gives a symbol of a function, in the first section.
pub fn symbol(name: &[u8], value: u32) -> Symbol {
    Symbol { name: name.to_vec(), value, info: 0x12, section: 1 }
}
