// Erased from crates/example_pages/src/page.rt: do not edit.
//! A page: four numbers, records of 64 bytes, and 8 bytes for the device's checksum.

#[allow(unused_imports)]
use crate::rattle_std::prelude::*;

pub const PAGE: usize = 4096;

pub type Page = [u8; PAGE];

const RECORD: usize = 64;

const HEADER: usize = 32;

const CHECKSUM: usize = 8;

pub type Record = [u8; RECORD];

/// The numbers at the front of a page.
#[derive(Clone, Copy, PartialEq)]
pub struct Header {
    /// The transaction that wrote the page, or 0 for a page without records.
    pub transaction: u64,
    pub number: u64,
    /// The place of the page among the pages of its transaction.
    pub place: u64,
    /// The number of pages of the transaction.
    pub count: u64,
}

pub const RECORDS: u64 = ((PAGE - HEADER - CHECKSUM) / RECORD) as u64;

fn number_at(page: &[u8], at: usize) -> u64 {
    let Some(rest) = page.get(at..) else {
        return 0;
    };
    match rest.split_first_chunk::<8>() {
        Some((bytes, _)) => u64::from_le_bytes(*bytes),
        None => 0,
    }
}

fn put_number(page: &mut [u8], at: usize, number: u64) {
    if let Some(rest) = page.get_mut(at..) {
        if let Some(bytes) = rest.first_chunk_mut::<8>() {
            *bytes = number.to_le_bytes();
        }
    }
}

pub fn header_of(page: &[u8]) -> Header {
    Header {
        transaction: number_at(page, 0),
        number: number_at(page, 8),
        place: number_at(page, 16),
        count: number_at(page, 24),
    }
}

pub fn put_header(page: &mut [u8], header: Header) {
    put_number(page, 0, header.transaction);
    put_number(page, 8, header.number);
    put_number(page, 16, header.place);
    put_number(page, 24, header.count);
}

fn start_of(slot: u64) -> usize {
    (slot as usize).wrapping_mul(RECORD).wrapping_add(HEADER)
}

pub fn record_at(page: &[u8], slot: u64) -> Record {
    let Some(rest) = page.get(start_of(slot)..) else {
        return [0; RECORD];
    };
    match rest.split_first_chunk::<RECORD>() {
        Some((record, _)) => *record,
        None => [0; RECORD],
    }
}

pub fn put_record(page: &mut [u8], slot: u64, record: &Record) {
    if let Some(rest) = page.get_mut(start_of(slot)..) {
        if let Some(place) = rest.first_chunk_mut::<RECORD>() {
            *place = *record;
        }
    }
}
