//! The plain Rust program that `bench/run` measures `pgcopy` against: the same copy, written for
//! speed with the standard library alone and without unsafe code. Its words, its output, its line
//! and its status are those that `README.md` tells, but for three things. It knows no help and no
//! version, and adds no hint to a line. Where a write fails, more or fewer of the last rows may have
//! been written before. And where a standard stream is closed, Rust's runtime opens an empty one
//! instead.
//!
//! There is one buffer of input, which is gone through once. A row that is canonical as it stands
//! is not written anew: such rows are handed on together, as one run of the buffer. A null, the byte
//! of a bool, a numeric that is not a number and what stands in front of the elements of an array
//! are respelled at their place. Only bytes that are dropped interrupt a run, which are those behind
//! the value of a bool, a char, an oid, an interval, a numeric or an array, and the fields behind the
//! last column; and an empty array that has fewer bytes than its canonical form. Elements that lose
//! bytes are first moved together. A range, a multirange or an array of them that is not canonical is
//! written anew beside the buffer, since it may become longer, and stands in the place of the old one.

use std::collections::TryReserveError;
use std::env;
use std::ffi::OsString;
use std::fmt::{self, Display, Formatter};
use std::fs::File;
use std::io::{self, BufWriter, ErrorKind, Read, Write};
use std::mem;
use std::os::fd::AsFd;
use std::process::ExitCode;

/// How many bytes of input are kept, where no row is longer.
const STEP: usize = 256 * 1024;
/// How many bytes of short runs are kept in front of the output. A longer run is written from where
/// it stands.
const KEPT: usize = 64 * 1024;
/// How many gaps of a run are kept, where no row has more.
const GAPS: usize = 1024;
/// The 11 bytes of the magic, then flags and the extension's length, which are 0.
const HEADER: [u8; 19] = *b"PGCOPY\n\xff\r\n\0\0\0\0\0\0\0\0\0";
/// The length of a null.
const NULL: [u8; 4] = (-1i32).to_be_bytes();
/// A numeric that is not a number: no digits, weight 0, its sign, scale 0.
const NOT_A_NUMBER: [u8; 8] = [0, 0, 0, 0, 0xc0, 0, 0, 0];
/// The bytes in front of an array's elements: the number of dimensions, flags, the element's oid, how
/// many elements there are, and the lower bound, in four bytes each.
const HEAD: usize = 20;
/// The bytes that every array has, of which the last are the element's oid.
const HEAD_LEAST: usize = 12;
/// What the head of an empty array has behind its oid: no elements, and the lower bound 1.
const NO_ELEMENTS: [u8; 8] = [0, 0, 0, 0, 0, 0, 0, 1];
/// The first byte of a range: whether the range is empty; whether the lower and the upper bound are
/// in it; whether there is no lower and no upper bound; and bits that say nothing.
const EMPTY: u8 = 0x01;
const LOWER_INCLUSIVE: u8 = 0x02;
const UPPER_INCLUSIVE: u8 = 0x04;
const LOWER_INFINITE: u8 = 0x08;
const UPPER_INFINITE: u8 = 0x10;
const IGNORED: u8 = 0xe0;
/// The longest field that the format can state.
const FIELD_MAX: u64 = 2147483647;
/// How many columns the count of a row can state.
const COLUMNS_MAX: usize = 32767;
/// How many records are open in the text of a type at most, and how many suffixes stand behind each
/// of its bases.
const DEPTH_MAX: usize = 31;

enum Fault {
    NotText,
    /// The place of the word, and what is wrong with it.
    Word(usize, &'static str),
    /// The place of the word, and what is wrong with it as the text of a type.
    Type(usize, TypeFault),
    /// The key of a type whose oid is needed and not given, or given as 0.
    UnknownType(String),
    BadHeader,
    BadFlags(u32),
    Truncated,
    BadFieldCount(i16),
    RowLimit,
    /// The row.
    TooFewFields(u64),
    /// The row, the column, and what is wrong with the field.
    BadField(u64, usize, &'static str),
    Read,
    Write,
    OutOfMemory,
}

type Result<T, E = Fault> = std::result::Result<T, E>;

impl Fault {
    fn status(&self) -> u8 {
        match self {
            Fault::NotText | Fault::Word(..) | Fault::Type(..) => 1,
            Fault::Read | Fault::Write => 3,
            Fault::UnknownType(_) => 4,
            Fault::OutOfMemory => 5,
            _ => 2,
        }
    }
}

impl Display for Fault {
    fn fmt(&self, f: &mut Formatter<'_>) -> fmt::Result {
        match self {
            Fault::NotText => write!(f, "arguments are not text"),
            Fault::Word(place, what) => write!(f, "word {place}: {what}"),
            Fault::Type(place, TypeFault { what, byte }) => {
                write!(f, "word {place}: {what} at {byte}")
            }
            Fault::UnknownType(key) => write!(f, "unknown type {key}"),
            Fault::BadHeader => write!(f, "bad header"),
            Fault::BadFlags(flags) => write!(f, "bad flags {flags:08X}"),
            Fault::Truncated => write!(f, "truncated"),
            Fault::BadFieldCount(count) => write!(f, "bad field count {count}"),
            Fault::RowLimit => write!(f, "row limit"),
            Fault::TooFewFields(row) => write!(f, "row {row}: too few fields"),
            Fault::BadField(row, column, what) => write!(f, "row {row} column {column}: {what}"),
            Fault::Read => write!(f, "read fault"),
            Fault::Write => write!(f, "write fault"),
            Fault::OutOfMemory => write!(f, "out of memory"),
        }
    }
}

impl From<TryReserveError> for Fault {
    fn from(_: TryReserveError) -> Fault {
        Fault::OutOfMemory
    }
}

/// Which bytes spell a value, and how many of them the canonical field has.
#[derive(Clone, Copy)]
enum Type {
    /// So many bytes, which are all kept.
    Exact(usize),
    /// At least so many bytes, of which the first so many are kept.
    Leading(usize),
    /// At least one byte, of which the first is kept, as 0 or 1.
    Bool,
    /// A network, with this byte behind the family and the prefix.
    Network(u8),
    Numeric,
    Text,
    Bytea,
    /// A byte of flags, and the bounds that it tells.
    Range(Bounds),
    /// A count, and as many ranges, each behind its length.
    Multirange(Bounds),
    /// An array of elements of the column's element type.
    Array,
}

/// What the bounds of a range are.
#[derive(Clone, Copy)]
enum Bounds {
    /// Numbers of so many bytes.
    Exact(usize),
    Numeric,
}

/// What the elements of an array are.
#[derive(Clone, Copy)]
struct Element {
    of: Type,
    nullable: bool,
    oid: [u8; 4],
}

#[derive(Clone, Copy)]
struct Column {
    of: Type,
    nullable: bool,
    /// Whether the values are ranges or multiranges, or arrays of them.
    has_ranges: bool,
    /// The type of the elements. Where the column has no arrays it is the column's own type.
    element: Element,
    /// The length of a field that is canonical whatever its bytes are. No field has the length
    /// `usize::MAX`.
    usual: usize,
}

impl Column {
    /// The column of a type that has no fault. `oid` is that of the type in front of its suffixes.
    fn new(of: &TypeRead, oid: u32) -> Column {
        let (suffixes, nullable) = without(of.suffixes, "?");
        let (element_suffixes, is_array) = without(suffixes, "[]");
        Column {
            of: if is_array { Type::Array } else { of.base },
            nullable,
            has_ranges: matches!(of.base, Type::Range(_) | Type::Multirange(_)),
            element: Element {
                of: of.base,
                nullable: !element_suffixes.is_empty(),
                oid: oid.to_be_bytes(),
            },
            usual: usize::MAX,
        }
    }

    /// The same, where a field has at most `field_max` bytes.
    fn within(self, field_max: usize) -> Column {
        match self.of {
            Type::Exact(usual) | Type::Leading(usual) if usual <= field_max => {
                Column { usual, ..self }
            }
            _ => self,
        }
    }

    /// Whether a canonical field may have another length than one that is read.
    fn shortens(&self) -> bool {
        self.of.shortens() || self.has_ranges || matches!(self.of, Type::Array)
    }

    /// What a field of ranges, multiranges or arrays of them becomes.
    fn measure(&self, bytes: &[u8]) -> Result<Measure, &'static str> {
        match self.of {
            Type::Array => self.element.measure(bytes),
            of => of.measure(bytes),
        }
    }

    /// Writes the canonical form of such a field, which spells a value.
    fn write(&self, bytes: &[u8], out: &mut Vec<u8>) {
        match self.of {
            Type::Array => self.element.write(bytes, out),
            of => of.write(bytes, out),
        }
    }
}

/// The text without that ending, and whether it had it.
fn without<'a>(text: &'a str, ending: &str) -> (&'a str, bool) {
    match text.strip_suffix(ending) {
        Some(bare) => (bare, true),
        None => (text, false),
    }
}

impl Type {
    /// The type of that name, and its oid.
    fn named(name: &str) -> Option<(Type, u32)> {
        Some(match name {
            "bool" => (Type::Bool, 16),
            "char" => (Type::Leading(1), 18),
            "int2" => (Type::Exact(2), 21),
            "int4" => (Type::Exact(4), 23),
            "int8" => (Type::Exact(8), 20),
            "oid" => (Type::Leading(4), 26),
            "text" => (Type::Text, 25),
            "bytea" => (Type::Bytea, 17),
            "uuid" => (Type::Exact(16), 2950),
            "money" => (Type::Exact(8), 790),
            "pg_lsn" => (Type::Exact(8), 3220),
            "macaddr" => (Type::Exact(6), 829),
            "macaddr8" => (Type::Exact(8), 774),
            "inet" => (Type::Network(0), 869),
            "cidr" => (Type::Network(1), 650),
            "date" => (Type::Exact(4), 1082),
            "time" => (Type::Exact(8), 1083),
            "timestamp" => (Type::Exact(8), 1114),
            "timestamptz" => (Type::Exact(8), 1184),
            "interval" => (Type::Leading(16), 1186),
            "numeric" => (Type::Numeric, 1700),
            "int4range" => (Type::Range(Bounds::Exact(4)), 3904),
            "int8range" => (Type::Range(Bounds::Exact(8)), 3926),
            "numrange" => (Type::Range(Bounds::Numeric), 3906),
            "daterange" => (Type::Range(Bounds::Exact(4)), 3912),
            "tsrange" => (Type::Range(Bounds::Exact(8)), 3908),
            "tstzrange" => (Type::Range(Bounds::Exact(8)), 3910),
            "int4multirange" => (Type::Multirange(Bounds::Exact(4)), 4451),
            "int8multirange" => (Type::Multirange(Bounds::Exact(8)), 4536),
            "nummultirange" => (Type::Multirange(Bounds::Numeric), 4532),
            "datemultirange" => (Type::Multirange(Bounds::Exact(4)), 4535),
            "tsmultirange" => (Type::Multirange(Bounds::Exact(8)), 4533),
            "tstzmultirange" => (Type::Multirange(Bounds::Exact(8)), 4534),
            _ => return None,
        })
    }

    /// Whether the canonical bytes of a value may be fewer than those that are read. An array is no
    /// element.
    fn shortens(self) -> bool {
        matches!(self, Type::Leading(_) | Type::Bool | Type::Numeric)
    }

    /// How many of these bytes the canonical field has, where they spell a value. Whether a text is
    /// one is not looked at, nor what ranges and arrays hold.
    #[inline(always)]
    fn kept(self, bytes: &[u8]) -> Result<usize, &'static str> {
        match self {
            Type::Exact(size) if bytes.len() != size => Err("size"),
            Type::Leading(size) if bytes.len() < size => Err("size"),
            Type::Bool if bytes.is_empty() => Err("size"),
            Type::Exact(size) | Type::Leading(size) => Ok(size),
            Type::Bool => Ok(1),
            Type::Network(kind) => network_kept(kind, bytes),
            Type::Numeric => numeric_kept(bytes),
            _ => Ok(bytes.len()),
        }
    }

    /// What a range or a multirange becomes.
    #[inline(always)]
    fn measure(self, bytes: &[u8]) -> Result<Measure, &'static str> {
        match self {
            Type::Range(bounds) => bounds.measure_range(bytes),
            Type::Multirange(bounds) => bounds.measure_multirange(bytes),
            _ => unreachable!("only ranges and multiranges are measured"),
        }
    }

    /// Writes the canonical form of a range or a multirange.
    fn write(self, bytes: &[u8], out: &mut Vec<u8>) {
        match self {
            Type::Range(bounds) => bounds.write_range(bytes, out),
            Type::Multirange(bounds) => bounds.write_multirange(bytes, out),
            _ => unreachable!("only ranges and multiranges are written anew"),
        }
    }
}

/// What bytes become that spell a value.
struct Measure {
    /// How many bytes the canonical form has.
    size: usize,
    /// Whether it is the same bytes.
    same: bool,
}

impl Measure {
    /// Adds a part behind its length.
    #[inline(always)]
    fn add(&mut self, part: Measure) {
        self.size += 4 + part.size;
        self.same &= part.same;
    }
}

/// The bytes behind the length that stands in front, and what stands behind them; where they are
/// there, and the length is not negative.
#[inline(always)]
fn split_frame(bytes: &[u8]) -> Option<(&[u8], &[u8])> {
    let (piece, behind) = field_at(bytes, 0)?;
    Some((piece?, &bytes[behind..]))
}

/// Writes what is written by a call behind its length.
fn write_frame(out: &mut Vec<u8>, write: impl FnOnce(&mut Vec<u8>)) {
    let start = out.len() + 4;
    out.extend_from_slice(&[0; 4]);
    write(out);
    let length = (out.len() - start) as u32;
    out[start - 4..start].copy_from_slice(&length.to_be_bytes());
}

impl Bounds {
    /// What both bounds of an empty range are written as: 0, and of numerics what is not a number.
    fn default(self) -> &'static [u8] {
        match self {
            Bounds::Exact(size) => &[0; 8][..size],
            Bounds::Numeric => &NOT_A_NUMBER,
        }
    }

    #[inline(always)]
    fn measure_bound(self, bytes: &[u8]) -> Result<Measure, &'static str> {
        let (size, same) = match self {
            Bounds::Exact(size) if bytes.len() != size => return Err("size"),
            Bounds::Exact(size) => (size, true),
            Bounds::Numeric => {
                let size = numeric_kept(bytes)?;
                let is_number = bytes[4] != NOT_A_NUMBER[4];
                let same = size == bytes.len() && (is_number || *bytes == NOT_A_NUMBER);
                (size, same)
            }
        };
        Ok(Measure { size, same })
    }

    fn write_bound(self, bytes: &[u8], out: &mut Vec<u8>) {
        let start = out.len();
        let size = self.measure_bound(bytes).map_or(0, |bound| bound.size);
        out.extend_from_slice(&bytes[..size]);
        if matches!(self, Bounds::Numeric) {
            respell_numeric(&mut out[start..]);
        }
    }

    /// The lower bound has the length that it states, and the upper one has all the rest.
    #[inline(always)]
    fn measure_range(self, bytes: &[u8]) -> Result<Measure, &'static str> {
        let (&flags, mut rest) = bytes.split_first().ok_or("size")?;
        if flags & EMPTY != 0 {
            let size = 1 + 2 * (4 + self.default().len());
            return Ok(Measure { size, same: false });
        }
        let mut seen = Measure {
            size: 1,
            same: flags & IGNORED == 0,
        };
        if flags & LOWER_INFINITE == 0 {
            let (lower, behind) = split_frame(rest).ok_or("size")?;
            seen.add(self.measure_bound(lower)?);
            rest = behind;
        } else {
            seen.same &= flags & LOWER_INCLUSIVE == 0;
        }
        if flags & UPPER_INFINITE == 0 {
            let (stated, upper) = rest.split_first_chunk().ok_or("size")?;
            seen.add(self.measure_bound(upper)?);
            seen.same &= u32::from_be_bytes(*stated) as usize == upper.len();
        } else {
            seen.same &= flags & UPPER_INCLUSIVE == 0 && rest.is_empty();
        }
        Ok(seen)
    }

    fn write_range(self, bytes: &[u8], out: &mut Vec<u8>) {
        let Some((&flags, mut rest)) = bytes.split_first() else {
            return;
        };
        if flags & EMPTY != 0 {
            out.push(0);
            for _ in 0..2 {
                write_frame(out, |out| out.extend_from_slice(self.default()));
            }
            return;
        }
        let told = |infinite, inclusive| match flags & infinite {
            0 => flags & inclusive,
            _ => infinite,
        };
        let lower = told(LOWER_INFINITE, LOWER_INCLUSIVE);
        out.push(lower | told(UPPER_INFINITE, UPPER_INCLUSIVE));
        if flags & LOWER_INFINITE == 0 {
            let Some((lower, behind)) = split_frame(rest) else {
                return;
            };
            write_frame(out, |out| self.write_bound(lower, out));
            rest = behind;
        }
        if flags & UPPER_INFINITE == 0 {
            write_frame(out, |out| self.write_bound(&rest[4..], out));
        }
    }

    #[inline(always)]
    fn measure_multirange(self, bytes: &[u8]) -> Result<Measure, &'static str> {
        let (count, mut rest) = bytes.split_first_chunk().ok_or("size")?;
        let mut seen = Measure {
            size: 4,
            same: true,
        };
        for _ in 0..u32::from_be_bytes(*count) {
            let (range, behind) = split_frame(rest).ok_or("size")?;
            seen.add(self.measure_range(range)?);
            rest = behind;
        }
        seen.same &= rest.is_empty();
        Ok(seen)
    }

    fn write_multirange(self, bytes: &[u8], out: &mut Vec<u8>) {
        let Some((count, mut rest)) = bytes.split_first_chunk() else {
            return;
        };
        out.extend_from_slice(count);
        for _ in 0..u32::from_be_bytes(*count) {
            let Some((range, behind)) = split_frame(rest) else {
                return;
            };
            write_frame(out, |out| self.write_range(range, out));
            rest = behind;
        }
    }
}

/// All bytes of a network are kept: the family, the prefix, the byte that tells `inet` and `cidr`
/// apart, the length of the address, and the address.
#[inline(always)]
fn network_kept(kind: u8, bytes: &[u8]) -> Result<usize, &'static str> {
    let (prefix, longest) = match *bytes {
        [2, prefix, of, 4, _, _, _, _] if of == kind => (prefix, 32),
        [3, prefix, of, 16, ref address @ ..] if of == kind && address.len() == 16 => (prefix, 128),
        _ => return Err("family"),
    };
    if prefix > longest {
        return Err("prefix");
    }
    Ok(bytes.len())
}

/// Of a numeric the number of digits, the weight, the sign and the scale are kept, each in two
/// bytes, and as many digits as there are said to be; of one that is not a number no digits.
#[inline(always)]
fn numeric_kept(bytes: &[u8]) -> Result<usize, &'static str> {
    let Some([high, low, _, _, sign @ .., _, _]) = bytes.first_chunk::<8>() else {
        return Err("size");
    };
    let size = 8 + 2 * usize::from(u16::from_be_bytes([*high, *low]));
    match sign {
        _ if bytes.len() < size => Err("size"),
        [0 | 0x40, 0] => Ok(size),
        [0xc0, 0] => Ok(NOT_A_NUMBER.len()),
        _ => Err("sign"),
    }
}

/// Makes the numeric in front of the bytes canonical where it is not a number.
#[inline(always)]
fn respell_numeric(bytes: &mut [u8]) {
    if bytes[4] == NOT_A_NUMBER[4] {
        bytes[..8].copy_from_slice(&NOT_A_NUMBER);
    }
}

/// What was seen of an array's elements.
struct Walk {
    /// Where the last of them ends, behind the head.
    end: usize,
    /// How many of their bytes are dropped.
    dropped: usize,
    nulls: bool,
}

/// Passes over as many elements. `kept` answers how many bytes of one are kept, and may respell it.
#[inline(always)]
fn walk(
    frames: &mut [u8],
    count: usize,
    nulls_are_told: bool,
    nullable: bool,
    kept: impl Fn(&mut [u8]) -> Result<usize, &'static str>,
) -> Result<Walk, &'static str> {
    let mut seen = Walk {
        end: 0,
        dropped: 0,
        nulls: false,
    };
    for _ in 0..count {
        let start = seen.end + 4;
        let length = i32::from_be_bytes(bytes_at(frames, seen.end).ok_or("size")?);
        seen.end = match usize::try_from(length) {
            Ok(length) => {
                let element = frames.get_mut(start..start + length).ok_or("size")?;
                seen.dropped += length - kept(element)?;
                start + length
            }
            Err(_) if length != -1 || !nulls_are_told => return Err("size"),
            Err(_) if !nullable => return Err("null"),
            Err(_) => {
                seen.nulls = true;
                start
            }
        };
    }
    Ok(seen)
}

/// Whether an array's flags tell of nulls, and how many elements it has.
#[inline(always)]
fn array_front(bytes: &[u8]) -> Result<(bool, usize), &'static str> {
    let dimensions = match bytes.first_chunk() {
        Some(dimensions) if bytes.len() >= HEAD_LEAST => u32::from_be_bytes(*dimensions),
        _ => return Err("size"),
    };
    let told = bytes[4..8] != [0; 4];
    match dimensions {
        0 => Ok((told, 0)),
        _ if bytes.len() < HEAD => Err("size"),
        1 => {
            let stated = bytes_at(bytes, 12).map_or(0, i32::from_be_bytes);
            Ok((told, usize::try_from(stated).unwrap_or(0)))
        }
        _ => Err("dimensions"),
    }
}

/// Whether the frames, of `N` bytes each, all state that length.
#[inline(always)]
fn all_state<const N: usize>(frames: &[u8], length: u32) -> bool {
    let differ = |bits, frame: &[u8]| match frame.first_chunk() {
        Some(stated) => bits | (u32::from_be_bytes(*stated) ^ length),
        None => u32::MAX,
    };
    frames.chunks_exact(N).fold(0, differ) == 0
}

impl Element {
    /// Where as many elements end that all have that size, if they do.
    #[inline(always)]
    fn behind_equal(frames: &[u8], count: usize, size: usize) -> Option<usize> {
        let end = count * (4 + size);
        let frames = frames.get(..end)?;
        let length = size as u32;
        let equal = match size {
            1 => all_state::<5>(frames, length),
            2 => all_state::<6>(frames, length),
            4 => all_state::<8>(frames, length),
            6 => all_state::<10>(frames, length),
            8 => all_state::<12>(frames, length),
            16 => all_state::<20>(frames, length),
            _ => false,
        };
        equal.then_some(end)
    }

    /// Passes over as many elements. The byte of each bool and each numeric that is not a number are
    /// made canonical.
    #[inline(always)]
    fn pass(&self, frames: &mut [u8], count: usize, told: bool) -> Result<Walk, &'static str> {
        let nullable = self.nullable;
        if let Type::Exact(size) | Type::Leading(size) = self.of {
            if let Some(end) = Element::behind_equal(frames, count, size) {
                return Ok(Walk {
                    end,
                    dropped: 0,
                    nulls: false,
                });
            }
        }
        match self.of {
            Type::Text => walk(frames, count, told, nullable, |bytes| {
                match is_text(bytes) {
                    true => Ok(bytes.len()),
                    false => Err("utf8"),
                }
            }),
            Type::Bytea => walk(frames, count, told, nullable, |bytes| Ok(bytes.len())),
            Type::Bool => walk(frames, count, told, nullable, |bytes| {
                let first = bytes.first_mut().ok_or("size")?;
                *first = (*first).min(1);
                Ok(1)
            }),
            Type::Numeric => walk(frames, count, told, nullable, |bytes| {
                let kept = numeric_kept(bytes)?;
                respell_numeric(bytes);
                Ok(kept)
            }),
            of => walk(frames, count, told, nullable, |bytes| of.kept(bytes)),
        }
    }

    /// What an array of ranges or multiranges becomes.
    fn measure(&self, bytes: &[u8]) -> Result<Measure, &'static str> {
        let (told, count) = array_front(bytes)?;
        let mut seen = Measure {
            size: HEAD,
            same: true,
        };
        let (mut place, mut nulls) = (HEAD, false);
        for _ in 0..count {
            let length = i32::from_be_bytes(bytes_at(bytes, place).ok_or("size")?);
            let (element, behind) = field_at(bytes, place).ok_or("size")?;
            match element {
                Some(element) => seen.add(self.of.measure(element)?),
                None if length != -1 || !told => return Err("size"),
                None if !self.nullable => return Err("null"),
                None => {
                    nulls = true;
                    seen.size += 4;
                }
            }
            place = behind;
        }
        seen.same &= bytes.len() == place && bytes[..HEAD] == self.head(count, nulls);
        Ok(seen)
    }

    /// Writes the canonical form of such an array.
    fn write(&self, bytes: &[u8], out: &mut Vec<u8>) {
        let count = array_front(bytes).map_or(0, |(_, count)| count);
        let start = out.len();
        out.extend_from_slice(&self.head(count, false));
        let mut place = HEAD;
        for _ in 0..count {
            let Some((element, behind)) = field_at(bytes, place) else {
                return;
            };
            match element {
                Some(element) => write_frame(out, |out| self.of.write(element, out)),
                None => {
                    out[start + 7] = 1;
                    out.extend_from_slice(&NULL);
                }
            }
            place = behind;
        }
    }

    /// What stands in front of the elements of a canonical array.
    fn head(&self, count: usize, nulls: bool) -> [u8; HEAD] {
        let mut head = [0; HEAD];
        head[..8].copy_from_slice(&[0, 0, 0, 1, 0, 0, 0, nulls.into()]);
        head[8..HEAD_LEAST].copy_from_slice(&self.oid);
        head[12..16].copy_from_slice(&(count as u32).to_be_bytes());
        head[16..].copy_from_slice(&[0, 0, 0, 1]);
        head
    }

    /// Checks an array, and answers how many bytes its canonical form has. They are then the first of
    /// these bytes. Where these are fewer the array is empty, and only its flags and its oid are made
    /// canonical. What is changed spells the same array, since the row may be looked at once more.
    #[inline(never)]
    fn check(&self, bytes: &mut [u8]) -> Result<usize, &'static str> {
        let (told, count) = array_front(bytes)?;
        let Some((head, frames)) = bytes.split_first_chunk_mut::<HEAD>() else {
            bytes[4..8].fill(0);
            bytes[8..HEAD_LEAST].copy_from_slice(&self.oid);
            return Ok(HEAD);
        };
        let seen = self.pass(frames, count, told)?;
        *head = self.head(count, seen.nulls);
        if seen.dropped > 0 {
            self.move_together(frames, count);
        }
        Ok(HEAD + seen.end - seen.dropped)
    }

    /// Moves as many elements together, each without the bytes that it does not keep. They were
    /// passed over before.
    fn move_together(&self, bytes: &mut [u8], count: usize) {
        let (mut from, mut to) = (0, 0);
        for _ in 0..count {
            let Some((element, behind)) = field_at(bytes, from) else {
                break;
            };
            let kept = element.map(|element| self.of.kept(element).unwrap_or(0));
            let length = kept.map_or(NULL, |kept| (kept as u32).to_be_bytes());
            let (start, kept) = (from + 4, kept.unwrap_or(0));
            bytes[to..to + 4].copy_from_slice(&length);
            bytes.copy_within(start..start + kept, to + 4);
            (from, to) = (behind, to + 4 + kept);
        }
    }
}

/// Whether the bytes are UTF-8. Up to 32 of them are looked at in few words, which may overlap, and
/// need no more where all are ASCII.
#[inline(always)]
fn is_text(bytes: &[u8]) -> bool {
    let high = match bytes.len() {
        0 => 0,
        1..=3 => u64::from(bytes[0] | bytes[bytes.len() / 2] | bytes[bytes.len() - 1]),
        4..=7 => ends(bytes, |half: [u8; 4]| u32::from_ne_bytes(half).into()),
        8..=16 => ends(bytes, u64::from_ne_bytes),
        17..=32 => ends(bytes, |words: [u8; 16]| {
            let words = u128::from_ne_bytes(words);
            (words | words >> 64) as u64
        }),
        _ => u64::MAX,
    };
    high & 0x8080_8080_8080_8080 == 0 || std::str::from_utf8(bytes).is_ok()
}

/// The bits of the first and of the last `N` bytes.
#[inline(always)]
fn ends<const N: usize>(bytes: &[u8], word: impl Fn([u8; N]) -> u64) -> u64 {
    match (bytes.first_chunk(), bytes.last_chunk()) {
        (Some(first), Some(last)) => word(*first) | word(*last),
        _ => u64::MAX,
    }
}

/// What the words ask for.
struct Plan {
    rows_max: u64,
    field_max: usize,
    columns: Vec<Column>,
    /// Whether the field of a column may lose bytes.
    shortens: bool,
}

/// The number behind an option's `=`. `before` is the one of the same option that stands before it.
fn read_number(digits: &str, most: u64, before: Option<u64>) -> Result<Option<u64>, &'static str> {
    match digits.parse() {
        Ok(number) if number <= most && !digits.starts_with('+') => match before {
            None => Ok(Some(number)),
            Some(_) => Err("repeated option"),
        },
        _ => Err("bad number"),
    }
}

/// Whether a byte may stand in a name.
fn is_name_byte(byte: &u8) -> bool {
    byte.is_ascii_alphanumeric() || *byte == b'_'
}

/// Whether a text is a name: 1 to 63 letters of ASCII, digits and `_`.
fn is_name(text: &str) -> bool {
    (1..=63).contains(&text.len()) && text.as_bytes().iter().all(is_name_byte)
}

/// The schema and the name in `[schema.]name`.
fn split_key(key: &str) -> (&str, &str) {
    key.split_once('.').unwrap_or(("public", key))
}

/// The oid that a word gives a type.
struct Given<'a> {
    /// The type's schema and name.
    key: (&'a str, &'a str),
    oid: u32,
}

/// Reads `[schema.]name:OID:ARRAYOID`. No column needs the oid of the type's arrays.
fn read_oids(text: &str) -> Option<Given<'_>> {
    let (key, oids) = text.split_once(':')?;
    let (oid, array_oid) = oids.split_once(':')?;
    let key = split_key(key);
    let number = |digits| read_number(digits, u32::MAX.into(), None).ok()?;
    let (oid, _) = (number(oid)? as u32, number(array_oid)?);
    (is_name(key.0) && is_name(key.1)).then_some(Given { key, oid })
}

/// What is wrong with a text as that of a type, and at which byte.
struct TypeFault {
    what: &'static str,
    byte: usize,
}

/// Which oid a type has.
enum Oid<'a> {
    Known(u32),
    /// That which a word gives the type of this key.
    Of(&'a str),
}

/// What the text of a type tells.
struct TypeRead<'a> {
    /// The type in front of the suffixes, and its oid.
    base: Type,
    oid: Oid<'a>,
    suffixes: &'a str,
}

impl TypeRead<'_> {
    /// What is wrong with the type, of the outermost type that has a fault. None is too deep, since
    /// so many suffixes have a fault before.
    fn fault(&self) -> Option<&'static str> {
        (1..=self.suffixes.len()).rev().find_map(|end| {
            let suffixes = &self.suffixes[..end];
            if suffixes.ends_with("??") {
                Some("schema fault 3")
            } else if suffixes.ends_with("[][]") || suffixes.ends_with("[]?[]") {
                Some("schema fault 4")
            } else {
                None
            }
        })
    }

    /// The oid of the type in front of the suffixes, where an array has to state it.
    fn oid(&self, given: &[Given]) -> Result<u32> {
        match self.oid {
            Oid::Known(oid) => Ok(oid),
            Oid::Of(_) if !self.suffixes.contains("[]") => Ok(0),
            Oid::Of(key) => {
                let split = split_key(key);
                match given.iter().find(|given| given.key == split) {
                    Some(&Given { oid, .. }) if oid != 0 => Ok(oid),
                    _ => Err(Fault::UnknownType(key.to_owned())),
                }
            }
        }
    }
}

/// The text of a type, which is read from left to right.
struct TypeText<'a> {
    text: &'a str,
    /// Where the next token begins.
    place: usize,
}

impl<'a> TypeText<'a> {
    /// Reads all of a text. The answer is None where a record stands in the type.
    fn read(text: &'a str) -> Result<Option<TypeRead<'a>>, TypeFault> {
        let mut text = TypeText { text, place: 0 };
        let read = text.read_type(0)?;
        text.take(str::is_empty)?;
        Ok(read)
    }

    fn fault<T>(&self, what: &'static str) -> Result<T, TypeFault> {
        let byte = self.place;
        Err(TypeFault { what, byte })
    }

    /// The next token: as many bytes of a name as stand there, `[]`, or another character. It is
    /// empty at the end.
    fn token(&self) -> &'a str {
        let rest = &self.text[self.place..];
        let length = match rest.bytes().take_while(is_name_byte).count() {
            0 if rest.starts_with("[]") => 2,
            0 => rest.chars().next().map_or(0, char::len_utf8),
            length => length,
        };
        &rest[..length]
    }

    /// Takes the next token, where it is one that may stand there.
    fn take(&mut self, may_stand: impl Fn(&str) -> bool) -> Result<(), TypeFault> {
        let token = self.token();
        if !may_stand(token) {
            return self.fault("bad type");
        }
        self.place += token.len();
        Ok(())
    }

    /// Takes the next token, where it is this one, and answers whether it is.
    fn take_if(&mut self, token: &str) -> bool {
        self.take(|next| next == token).is_ok()
    }

    /// Reads a type that stands in so many records.
    fn read_type(&mut self, records: usize) -> Result<Option<TypeRead<'a>>, TypeFault> {
        let base = self.read_base(records)?;
        let start = self.place;
        let mut suffixes = 0;
        while let token @ ("?" | "[]") = self.token() {
            if suffixes == DEPTH_MAX {
                return self.fault("type too deep");
            }
            self.place += token.len();
            suffixes += 1;
        }
        let suffixes = &self.text[start..self.place];
        Ok(base.map(|(base, oid)| TypeRead {
            base,
            oid,
            suffixes,
        }))
    }

    /// Reads what stands in front of the suffixes: a name, a record, or a key between `@` and `:` and
    /// then `text` or a record.
    fn read_base(&mut self, records: usize) -> Result<Option<(Type, Oid<'a>)>, TypeFault> {
        let token = self.token();
        if let Some((base, oid)) = Type::named(token) {
            self.place += token.len();
            return Ok(Some((base, Oid::Known(oid))));
        }
        if self.take_if("@") {
            let start = self.place;
            self.take(is_name)?;
            if self.take_if(".") {
                self.take(is_name)?;
            }
            let key = &self.text[start..self.place];
            self.take(|token| token == ":")?;
            if self.take_if("text") {
                return Ok(Some((Type::Text, Oid::Of(key))));
            }
        }
        self.read_record(records)?;
        Ok(None)
    }

    fn read_record(&mut self, records: usize) -> Result<(), TypeFault> {
        if records == DEPTH_MAX && self.token() == "(" {
            return self.fault("type too deep");
        }
        self.take(|token| token == "(")?;
        self.read_type(records + 1)?;
        while self.take_if(",") {
            self.read_type(records + 1)?;
        }
        self.take(|token| token == ")")
    }
}

fn read_words(words: &[String]) -> Result<Plan> {
    match words.first().map(String::as_str) {
        None => return Err(Fault::Word(0, "missing command")),
        Some("copy") => {}
        Some(_) => return Err(Fault::Word(0, "unknown command")),
    }
    let (mut rows, mut field) = (None, None);
    let mut given: Vec<Given> = Vec::new();
    let mut types = Vec::new();
    for (place, word) in words.iter().enumerate().skip(1) {
        let fault = |what| Fault::Word(place, what);
        let option = if types.is_empty() {
            word.split_once('=')
        } else {
            None
        };
        match option {
            Some(("rows", digits)) => rows = read_number(digits, u64::MAX, rows).map_err(fault)?,
            Some(("field", digits)) => {
                field = read_number(digits, FIELD_MAX, field).map_err(fault)?
            }
            Some(("oid", text)) => {
                let read = read_oids(text).ok_or(fault("bad oid word"))?;
                if given.iter().any(|before| before.key == read.key) {
                    return Err(fault("repeated option"));
                }
                given.try_reserve(1)?;
                given.push(read);
            }
            _ => {
                let read = TypeText::read(word).map_err(|wrong| Fault::Type(place, wrong))?;
                types.try_reserve(1)?;
                types.push(read.ok_or(fault("not supported yet"))?);
            }
        }
    }
    match types.len() {
        0 => return Err(Fault::Word(words.len(), "missing type")),
        1..=COLUMNS_MAX => {}
        _ => return Err(Fault::Word(words.len(), "schema fault 2")),
    }
    let first = words.len() - types.len();
    for (column, of) in types.iter().enumerate() {
        if let Some(what) = of.fault() {
            return Err(Fault::Word(first + column, what));
        }
    }
    let field_max = field.unwrap_or(FIELD_MAX) as usize;
    let mut columns = Vec::new();
    columns.try_reserve_exact(types.len())?;
    for of in &types {
        columns.push(Column::new(of, of.oid(&given)?).within(field_max));
    }
    Ok(Plan {
        rows_max: rows.unwrap_or(u64::MAX),
        field_max,
        shortens: columns.iter().any(Column::shortens),
        columns,
    })
}

/// The `N` bytes at a place, where they are there.
#[inline(always)]
fn bytes_at<const N: usize>(bytes: &[u8], place: usize) -> Option<[u8; N]> {
    bytes.get(place..)?.first_chunk().copied()
}

/// The bytes of the field at a place, or None for a null, and where it ends; where it is there
/// whole.
#[inline(always)]
fn field_at(bytes: &[u8], place: usize) -> Option<(Option<&[u8]>, usize)> {
    let start = place + 4;
    match usize::try_from(i32::from_be_bytes(bytes_at(bytes, place)?)) {
        Ok(length) => Some((Some(bytes.get(start..start + length)?), start + length)),
        Err(_) => Some((None, start)),
    }
}

/// Where as many fields end, of which the first is at a place; where they are there whole.
#[inline]
fn behind_fields(bytes: &[u8], place: usize, count: usize) -> Option<usize> {
    (0..count).try_fold(place, |place, _| Some(field_at(bytes, place)?.1))
}

/// Why the fields of a row are not taken.
enum Stop {
    /// They are not there whole.
    Cut,
    /// The column, and what is wrong with its field.
    Bad(usize, &'static str),
}

/// A field that has another length than its canonical form, or is to be written anew.
struct Surplus {
    /// Where its length stands.
    place: usize,
    /// How many bytes the canonical form has. They stand behind the length, but for an empty array
    /// that has fewer, and for a field that is to be written anew.
    kept: usize,
    /// Where it ends.
    behind: usize,
    /// The column, where the field is to be written anew.
    anew: Option<usize>,
}

/// What is dropped of a run.
struct Gap {
    from: usize,
    to: usize,
    /// How many bytes are written in its place.
    made: usize,
}

impl Plan {
    /// Whether the bytes are a text within the limit. It stands apart from the other types, which
    /// is faster.
    #[inline(always)]
    fn check_text(&self, bytes: &[u8]) -> Result<(), &'static str> {
        if !is_text(bytes) {
            return Err("utf8");
        }
        if bytes.len() > self.field_max {
            return Err("too long");
        }
        Ok(())
    }

    /// Checks the field of each column, of which the first is at a place. Makes each null, the byte
    /// of each bool, each numeric that is not a number and the head of each array canonical, and
    /// answers where the last field ends. Of the fields that have another length than their
    /// canonical form, or are to be written anew, a list is made, since only a row that is taken may
    /// be changed in it.
    /// `SHORTENS` tells whether a column may have such fields.
    #[inline(always)]
    fn check_fields<const SHORTENS: bool>(
        &self,
        bytes: &mut [u8],
        mut place: usize,
        surplus: &mut Vec<Surplus>,
    ) -> Result<usize, Stop> {
        if SHORTENS {
            surplus.clear();
        }
        for (column, of) in self.columns.iter().enumerate() {
            let bad = |what| Stop::Bad(column, what);
            let (field, behind) = field_at(bytes, place).ok_or(Stop::Cut)?;
            match field {
                None if of.nullable => bytes[place..behind].copy_from_slice(&NULL),
                None => return Err(bad("null")),
                Some(field) if field.len() == of.usual => {}
                Some(field) if matches!(of.of, Type::Text) => {
                    self.check_text(field).map_err(bad)?
                }
                Some(field) if SHORTENS && of.has_ranges => {
                    let Measure { size, same } = of.measure(field).map_err(bad)?;
                    if size > self.field_max {
                        return Err(bad("too long"));
                    }
                    if !same {
                        surplus.push(Surplus {
                            place,
                            kept: size,
                            behind,
                            anew: Some(column),
                        });
                    }
                }
                Some(field) => {
                    let length = field.len();
                    let kept = match of.of {
                        Type::Array => of.element.check(&mut bytes[place + 4..behind]),
                        scalar => scalar.kept(field),
                    };
                    let kept = kept.map_err(bad)?;
                    if kept > self.field_max {
                        return Err(bad("too long"));
                    }
                    if SHORTENS && kept != length {
                        surplus.push(Surplus {
                            place,
                            kept,
                            behind,
                            anew: None,
                        });
                    }
                    match of.of {
                        Type::Bool if SHORTENS => bytes[place + 4] = bytes[place + 4].min(1),
                        Type::Numeric if SHORTENS => respell_numeric(&mut bytes[place + 4..]),
                        _ => {}
                    }
                }
            }
            place = behind;
        }
        Ok(place)
    }

    /// How rows look that are canonical wherever their count and their lengths are right, where the
    /// columns are such that there are some.
    fn layout(&self) -> Result<Option<Layout>> {
        let mut lengths = Vec::new();
        lengths.try_reserve_exact(self.columns.len())?;
        let mut size = 2;
        for column in &self.columns {
            if column.nullable || column.usual == usize::MAX {
                return Ok(None);
            }
            lengths.push((size, (column.usual as u32).to_be_bytes()));
            size += 4 + column.usual;
        }
        Ok(Some(Layout { size, lengths }))
    }
}

/// How rows of values look that all have one size.
struct Layout {
    /// How many bytes a row has.
    size: usize,
    /// Where the length of each field stands, and which it is.
    lengths: Vec<(usize, [u8; 4])>,
}

impl Layout {
    /// How many rows in front, and at most how many, have this layout.
    fn rows_in_front(&self, bytes: &[u8], most: usize) -> usize {
        match self.lengths[..] {
            [(_, length)] => match self.size {
                10 => single_fields::<10>(bytes, most, length),
                14 => single_fields::<14>(bytes, most, length),
                _ => self.rows_of_fields(bytes, most),
            },
            _ => self.rows_of_fields(bytes, most),
        }
    }

    fn rows_of_fields(&self, bytes: &[u8], most: usize) -> usize {
        let count = (self.lengths.len() as u16).to_be_bytes();
        let is_right = |row: &&[u8]| {
            let mut lengths = self.lengths.iter();
            row[..2] == count && lengths.all(|&(place, length)| row[place..place + 4] == length)
        };
        let rows = bytes.chunks_exact(self.size).take(most);
        rows.take_while(is_right).count()
    }
}

/// How many rows in front, and at most how many, have one field of this length, and `N` bytes.
fn single_fields<const N: usize>(bytes: &[u8], most: usize, length: [u8; 4]) -> usize {
    let [a, b, c, d] = length;
    let rows = bytes.chunks_exact(N).take(most);
    rows.take_while(|row| row[..6] == [0, 1, a, b, c, d])
        .count()
}

struct Copier {
    plan: Plan,
    layout: Option<Layout>,
    input: File,
    output: BufWriter<File>,
    /// The input that was read, up to `end`.
    buffer: Vec<u8>,
    end: usize,
    /// Where the row begins that is read now, and where the run in front of it begins, which is
    /// canonical but for its gaps, and not handed on yet.
    row: usize,
    run: usize,
    rows: u64,
    /// The fields of the row that have another length than their canonical form, or are to be written
    /// anew.
    surplus: Vec<Surplus>,
    /// What is dropped of the run.
    gaps: Vec<Gap>,
    /// What is written in the places of the gaps, of one behind the other.
    made: Vec<u8>,
}

impl Copier {
    fn new(plan: Plan, input: File, output: File) -> Result<Copier> {
        let mut buffer = Vec::new();
        buffer.try_reserve_exact(STEP)?;
        buffer.resize(STEP, 0);
        let shortened = plan.columns.iter().filter(|of| of.shortens()).count();
        let mut surplus = Vec::new();
        surplus.try_reserve_exact(shortened)?;
        let mut gaps = Vec::new();
        gaps.try_reserve_exact(GAPS + shortened)?;
        Ok(Copier {
            layout: plan.layout()?,
            plan,
            input,
            output: BufWriter::with_capacity(KEPT, output),
            buffer,
            end: 0,
            row: 0,
            run: 0,
            rows: 0,
            surplus,
            gaps,
            made: Vec::new(),
        })
    }

    /// Hands on the run up to a place, and begins another run and another row behind it. The run has
    /// no gaps.
    #[inline]
    fn hand_on(&mut self, to: usize, behind: usize) -> Result<()> {
        let handed = self.output.write_all(&self.buffer[self.run..to]);
        self.run = behind;
        self.row = behind;
        handed.map_err(|_| Fault::Write)
    }

    /// Hands on the run up to its last gap, if it has one, and begins another run behind that.
    /// Where that fails nothing of the run is left.
    fn hand_on_gaps(&mut self) -> Result<()> {
        let mut run = mem::replace(&mut self.run, self.row);
        let mut written = 0;
        for Gap { from, to, made } in self.gaps.drain(..) {
            let mut handed = self.output.write_all(&self.buffer[run..from]);
            if made > 0 {
                let made = &self.made[written..written + made];
                handed = handed.and_then(|()| self.output.write_all(made));
            }
            handed.map_err(|_| Fault::Write)?;
            written += made;
            run = to;
        }
        self.made.clear();
        self.run = run;
        Ok(())
    }

    /// Reads on, where less than `wanted` bytes of the row are there. The row is moved to the front
    /// of the buffer, which grows with what was read, so that a stated length alone takes no
    /// memory.
    fn read_on(&mut self, wanted: usize) -> Result<()> {
        if self.row > 0 {
            let row = self.row..self.end;
            self.end -= self.row;
            self.hand_on_gaps()?;
            self.hand_on(row.start, 0)?;
            self.buffer.copy_within(row, 0);
        }
        if self.end == self.buffer.len() {
            let length = wanted.next_multiple_of(STEP).min(2 * self.end);
            self.buffer.try_reserve_exact(length - self.end)?;
            self.buffer.resize(length, 0);
        }
        // Of a long row no more is read than it has, so that nothing behind it has to be moved.
        let to = wanted.max(STEP).min(self.buffer.len());
        loop {
            match self.input.read(&mut self.buffer[self.end..to]) {
                Ok(0) => return Err(Fault::Truncated),
                Ok(read) => {
                    self.end += read;
                    return Ok(());
                }
                Err(error) if error.kind() == ErrorKind::Interrupted => {}
                Err(_) => return Err(Fault::Read),
            }
        }
    }

    /// Reads until that many bytes of the row are there.
    #[inline]
    fn want(&mut self, bytes: usize) -> Result<()> {
        while self.end - self.row < bytes {
            self.read_on(bytes)?;
        }
        Ok(())
    }

    /// Reads until the row with that count is there whole.
    fn want_row(&mut self, count: usize) -> Result<()> {
        let mut whole = 2;
        for _ in 0..count {
            self.want(whole + 4)?;
            let length = bytes_at(&self.buffer, self.row + whole).map_or(0, i32::from_be_bytes);
            whole += 4 + usize::try_from(length).unwrap_or(0);
            self.want(whole)?;
        }
        Ok(())
    }

    /// Takes the header, and hands on the canonical one.
    fn take_header(&mut self) -> Result<()> {
        self.want(HEADER.len())?;
        let flags = bytes_at(&self.buffer, 11).map_or(0, u32::from_be_bytes);
        let extension = bytes_at(&self.buffer, 15).map_or(0, i32::from_be_bytes);
        if self.buffer[..11] != HEADER[..11] {
            return Err(Fault::BadHeader);
        }
        if flags > 0xffff {
            return Err(Fault::BadFlags(flags));
        }
        let mut extension = usize::try_from(extension).map_err(|_| Fault::BadHeader)?;
        self.run = HEADER.len();
        self.row = HEADER.len();
        while extension > 0 {
            self.want(1)?;
            let passed = extension.min(self.end - self.row);
            extension -= passed;
            self.row += passed;
            self.run = self.row;
        }
        self.output.write_all(&HEADER).map_err(|_| Fault::Write)
    }

    /// Passes over whole rows that have the layout, if there is one.
    fn pass_rows(&mut self) {
        let Some(layout) = &self.layout else { return };
        let most = usize::try_from(self.plan.rows_max - self.rows).unwrap_or(usize::MAX);
        let passed = layout.rows_in_front(&self.buffer[self.row..self.end], most);
        self.row += passed * layout.size;
        self.rows += passed as u64;
    }

    /// Makes the lengths of the row's fields canonical, and a gap of what they do not keep. The gaps
    /// are left out once the run is handed on, since bytes that were just written are slow to copy.
    #[inline(always)]
    fn shorten_row(&mut self) -> Result<()> {
        for field in &self.surplus {
            let start = field.place + 4;
            if let Some(column) = field.anew {
                self.made.try_reserve(4 + field.kept)?;
                let (of, out) = (&self.plan.columns[column], &mut self.made);
                write_frame(out, |out| of.write(&self.buffer[start..field.behind], out));
                self.gaps.push(Gap {
                    from: field.place,
                    to: field.behind,
                    made: 4 + field.kept,
                });
                continue;
            }
            let length = (field.kept as u32).to_be_bytes();
            self.buffer[field.place..start].copy_from_slice(&length);
            let (mut from, to, mut made) = (start + field.kept, field.behind, 0);
            if from >= to {
                // The number of dimensions, behind which the flags and the oid are canonical.
                self.buffer[start..start + 4].copy_from_slice(&[0, 0, 0, 1]);
                from = start + HEAD_LEAST;
                made = NO_ELEMENTS.len();
                self.made.try_reserve(made)?;
                self.made.extend_from_slice(&NO_ELEMENTS);
            }
            self.gaps.push(Gap { from, to, made });
        }
        Ok(())
    }

    /// Takes whole rows with a value for each column. They are canonical once their nulls and bools
    /// are, and once the bytes behind a value and the fields behind the last column are dropped.
    fn take_rows<const SHORTENS: bool>(&mut self) -> Result<()> {
        let columns = self.plan.columns.len();
        while self.rows < self.plan.rows_max {
            let bytes = &mut self.buffer[..self.end];
            let count = bytes_at(bytes, self.row).map_or(-1, i16::from_be_bytes);
            // Less than 0 for too few fields, and for a count that is none of a row.
            let more = isize::from(count) - columns as isize;
            if more < 0 {
                break;
            }
            let fields = self.row + 2;
            let checked = self
                .plan
                .check_fields::<SHORTENS>(bytes, fields, &mut self.surplus);
            let Ok(last) = checked else { break };
            let mut behind = last;
            if more > 0 {
                let Some(end) = behind_fields(bytes, last, more as usize) else {
                    break;
                };
                bytes[self.row..fields].copy_from_slice(&(columns as u16).to_be_bytes());
                behind = end;
            }
            if SHORTENS {
                self.shorten_row()?;
                if more > 0 || self.gaps.len() >= GAPS || self.made.len() >= KEPT {
                    self.hand_on_gaps()?;
                }
            }
            if more > 0 {
                self.hand_on(last, behind)?;
            } else {
                self.row = last;
            }
            self.rows += 1;
        }
        Ok(())
    }

    /// Why the row with that count is refused. It is there whole, and was not taken.
    fn refusal(&mut self, count: usize) -> Fault {
        if count < self.plan.columns.len() {
            return Fault::TooFewFields(self.rows);
        }
        let (bytes, fields) = (&mut self.buffer[..self.end], self.row + 2);
        match self
            .plan
            .check_fields::<true>(bytes, fields, &mut self.surplus)
        {
            Err(Stop::Bad(column, what)) => Fault::BadField(self.rows, column, what),
            Ok(_) | Err(Stop::Cut) => unreachable!("a whole row of values is taken"),
        }
    }

    /// Takes all rows and the count -1 behind them.
    fn take_all(&mut self) -> Result<()> {
        loop {
            self.pass_rows();
            if self.plan.shortens {
                self.take_rows::<true>()?;
            } else {
                self.take_rows::<false>()?;
            }
            if self.end - self.row < 2 {
                self.want(2)?;
                continue;
            }
            let count = bytes_at(&self.buffer, self.row).map_or(0, i16::from_be_bytes);
            let Ok(fields) = usize::try_from(count) else {
                return if count == -1 {
                    Ok(())
                } else {
                    Err(Fault::BadFieldCount(count))
                };
            };
            if self.rows == self.plan.rows_max {
                return Err(Fault::RowLimit);
            }
            if behind_fields(&self.buffer[..self.end], self.row + 2, fields).is_some() {
                return Err(self.refusal(fields));
            }
            self.want_row(fields)?;
        }
    }

    /// Copies the stream, and answers how many rows it had. Where a fault ends the copy, the rows
    /// before it are handed on, and dropping the writer writes them.
    fn copy(mut self) -> Result<u64> {
        self.take_header()?;
        let taken = self.take_all();
        let to = if taken.is_ok() {
            self.row + 2
        } else {
            self.row
        };
        self.hand_on_gaps()?;
        self.hand_on(to, to)?;
        taken?;
        self.output.flush().map_err(|_| Fault::Write)?;
        Ok(self.rows)
    }
}

fn run() -> Result<u64> {
    let words: Result<Vec<String>, _> = env::args_os().skip(1).map(OsString::into_string).collect();
    let plan = read_words(&words.map_err(|_| Fault::NotText)?)?;
    // The standard library's own streams have buffers, which a copy of the descriptor goes around.
    let input = io::stdin()
        .as_fd()
        .try_clone_to_owned()
        .map_err(|_| Fault::Read)?;
    let output = io::stdout()
        .as_fd()
        .try_clone_to_owned()
        .map_err(|_| Fault::Write)?;
    Copier::new(plan, input.into(), output.into())?.copy()
}

fn main() -> ExitCode {
    let (status, line) = match run() {
        Ok(rows) => (0, format!("rows {rows}\n")),
        Err(fault) => (fault.status(), format!("{fault}\n")),
    };
    // The status tells enough where the line cannot be written.
    let _ = io::stderr().write_all(line.as_bytes());
    ExitCode::from(status)
}
