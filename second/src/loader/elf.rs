//! The file: its headers, its segments and the refusals of them (L5 to L16).

use super::Refusal;

/// The most bytes of a segment, and of the kernel's RAM.
const MOST: u64 = 65_536;
/// Where the stack's page begins, and a User program ends at the latest.
const STACK: u64 = 0x7fff_f000;
/// The most program headers.
const HEADERS_MOST: u32 = 32;
/// The types of headers that are notes.
const NOTES: [u64; 4] = [4, 0x7000_0000, 0x7000_0002, 0x7000_0003];
/// The type of a header that is loaded.
const LOAD: u64 = 1;

/// A refusal before its file has a number.
#[derive(Clone, Copy, Debug, PartialEq, Eq)]
pub struct Refused {
    pub number: u32,
    pub about: u32,
}

impl Refused {
    /// Gives the refusal of a file by its number.
    pub fn of(self, file: usize) -> Refusal {
        Refusal { number: self.number, file, about: self.about }
    }
}

/// Refuses, where a condition does not hold.
fn demand(holds: bool, number: u32, about: u32) -> Result<(), Refused> {
    if holds {
        Ok(())
    } else {
        Err(Refused { number, about })
    }
}

/// What a file is loaded as.
#[derive(Clone, Copy, Debug, PartialEq, Eq)]
pub enum Role {
    User,
    /// A program in Kernel mode, alone.
    Kernel,
    /// The kernel beneath User programs; its entry point is not looked at.
    KernelBelow,
}

/// The fields of a program header that are looked at.
#[derive(Clone, Copy)]
struct Header {
    kind: u64,
    offset: u64,
    vaddr: u64,
    filesz: u64,
    memsz: u64,
    flags: u64,
}

/// A part of a file that is loaded.
#[derive(Clone, Copy, Debug, PartialEq, Eq)]
pub struct Segment {
    pub home: u64,
    pub vaddr: u64,
    pub memsz: u64,
    pub writable: bool,
    offset: u64,
    filesz: u64,
}

/// A file that nothing speaks against.
#[derive(Clone, Debug, PartialEq, Eq)]
pub struct Program<'a> {
    file: &'a [u8],
    pub entry: u32,
    pub segments: Vec<Segment>,
}

/// Reads two bytes that are in the file.
pub fn b16(file: &[u8], at: usize) -> u32 {
    (file[at] as u32) << 8 | file[at + 1] as u32
}

/// Reads four bytes that are in the file.
pub fn b32(file: &[u8], at: usize) -> u32 {
    b16(file, at) << 16 | b16(file, at + 2)
}

/// Asks what every file is asked: whether it is a linked program for this card (L5 to L10).
pub fn is_linked(file: &[u8]) -> Result<(), Refused> {
    demand(file.starts_with(b"\x7fELF"), 1, 0)?;
    demand(file.len() >= 52, 2, file.len() as u32)?;
    demand(file[4] == 1, 3, file[4] as u32)?;
    demand(file[5] == 2, 4, file[5] as u32)?;
    demand(b16(file, 18) == 8, 5, b16(file, 18))?;
    demand(b16(file, 16) == 2, 6, b16(file, 16))
}

/// Reads the table of program headers (L11).
fn headers(file: &[u8]) -> Result<Vec<Header>, Refused> {
    let (table, size, count) = (b32(file, 28), b16(file, 42), b16(file, 44));
    demand(size == 32, 7, size)?;
    demand(count <= HEADERS_MOST, 8, count)?;
    demand(table as u64 + 32 * count as u64 <= file.len() as u64, 9, table)?;
    Ok((0..count as usize).map(|i| header(file, table as usize + 32 * i)).collect())
}

/// Reads the program header at an offset.
fn header(file: &[u8], at: usize) -> Header {
    let field = |number: usize| b32(file, at + 4 * number) as u64;
    Header {
        kind: field(0),
        offset: field(1),
        vaddr: field(2),
        filesz: field(4),
        memsz: field(5),
        flags: field(6),
    }
}

/// Tells whether notes alone cover a header's addresses (L12).
fn is_only_notes(header: &Header, all: &[Header]) -> bool {
    let mut reach = header.vaddr;
    for note in all.iter().filter(|other| NOTES.contains(&other.kind)) {
        if note.vaddr <= reach {
            reach = reach.max(note.vaddr + note.memsz);
        }
    }
    header.filesz <= header.memsz && reach >= header.vaddr + header.memsz
}

/// Gives the home of an address, or nothing where there is none (L13).
fn home(vaddr: u64, role: Role) -> Option<u64> {
    match (role, vaddr) {
        (Role::User, _) => Some(vaddr),
        (_, 0x8000_0000..=0x9fff_ffff) => Some(vaddr - 0x8000_0000),
        (_, 0xa000_0000..=0xbfff_ffff) => Some(vaddr - 0xa000_0000),
        _ => None,
    }
}

/// Takes a header as the next segment after others, or refuses it by its number (L14).
fn segment(
    header: &Header,
    i: u32,
    length: u64,
    role: Role,
    before: &[Segment],
) -> Result<Segment, Refused> {
    demand(header.offset + header.filesz <= length, 10, i)?;
    demand(header.filesz <= header.memsz, 11, i)?;
    demand(header.memsz <= MOST, 12, i)?;
    let outside = Refused { number: 13, about: i };
    let home = home(header.vaddr, role).ok_or(outside)?;
    let most = if role == Role::User { STACK } else { MOST };
    demand(home + header.memsz <= most, 13, i)?;
    let apart =
        |other: &Segment| home + header.memsz <= other.home || other.home + other.memsz <= home;
    demand(before.iter().all(apart), 14, i)?;
    Ok(Segment {
        home,
        vaddr: header.vaddr,
        memsz: header.memsz,
        writable: header.flags & 2 != 0,
        offset: header.offset,
        filesz: header.filesz,
    })
}

/// Reads a file in its role, or gives the first refusal.
pub fn read(file: &[u8], role: Role) -> Result<Program<'_>, Refused> {
    is_linked(file)?;
    let headers = headers(file)?;
    let mut segments: Vec<Segment> = Vec::new();
    for (i, header) in headers.iter().enumerate() {
        if header.kind == LOAD && !is_only_notes(header, &headers) {
            segments.push(segment(header, i as u32, file.len() as u64, role, &segments)?);
        }
    }
    demand(!segments.is_empty(), 15, 0)?;
    let entry = b32(file, 24);
    if role != Role::KernelBelow {
        let at = entry as u64;
        let inside = segments.iter().any(|s| s.vaddr <= at && at < s.vaddr + s.memsz);
        demand(entry & 3 == 0 && inside, 16, entry)?;
    }
    Ok(Program { file, entry, segments })
}

impl Segment {
    /// Gives the numbers of the first page that it touches and of the one after its last.
    pub fn pages(&self) -> std::ops::Range<u64> {
        self.home / 4096..(self.home + self.memsz).div_ceil(4096)
    }
}

impl Program<'_> {
    /// Gives the byte that stands at an address of the file's home (L18).
    pub fn stands_at(&self, address: u64) -> u8 {
        let holds = |s: &&Segment| s.home <= address && address < s.home + s.memsz;
        match self.segments.iter().find(holds) {
            Some(s) if address - s.home < s.filesz => {
                self.file[(s.offset + (address - s.home)) as usize]
            }
            _ => 0,
        }
    }
}
