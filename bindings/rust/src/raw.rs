//! The functions of the archive, as include/ntske.h declares them, and a safe form of each over slices and arrays.
//! tests/abi/signatures.rs holds the declarations against the source. Every `unsafe` of the crate is here.
//!
//! What holds for each call below: a pointer and the length behind it are of one slice, so it is not null, is aligned
//! and points to that many elements; a pointer without a length is of one array of that size; what is written to is
//! borrowed alone, so it overlaps nothing else; and no slice is longer than `isize::MAX` bytes. The call keeps no
//! pointer. Each returns a word, which [`crate::Refusal::from_word`] takes apart.
#![allow(unsafe_code)]

use crate::{AeadAlgorithm, AlgorithmDescription, NextProtocol};

extern "C" {
    fn ntske_read_request(
        message: *const u8,
        message_len: usize,
        limit: u16,
        table: *mut u16,
        table_len: usize,
        answer: *mut [usize; 10],
    ) -> u64;
    fn ntske_read_reply(
        message: *const u8,
        message_len: usize,
        limit: u16,
        protocols: *const u16,
        protocols_len: usize,
        algorithms: *const u16,
        algorithms_len: usize,
        table: *mut u16,
        table_len: usize,
        answer: *mut [usize; 9],
    ) -> u64;
    fn ntske_read_request_strict(
        message: *const u8,
        message_len: usize,
        limit: u16,
        table: *mut u16,
        table_len: usize,
        answer: *mut [usize; 10],
    ) -> u64;
    fn ntske_read_reply_strict(
        message: *const u8,
        message_len: usize,
        limit: u16,
        protocols: *const u16,
        protocols_len: usize,
        algorithms: *const u16,
        algorithms_len: usize,
        table: *mut u16,
        table_len: usize,
        answer: *mut [usize; 9],
    ) -> u64;
    fn ntske_walk_request(message: *const u8, message_len: usize, limit: u16, finding: *mut [u16; 48]) -> u64;
    fn ntske_decide_request(
        finding: *const [u16; 48],
        message: *const u8,
        message_len: usize,
        table: *mut u16,
        table_len: usize,
        answer: *mut [usize; 10],
    ) -> u64;
    fn ntske_connection_new(limit: u16, connection: *mut [usize; 9]) -> u64;
    fn ntske_connection_new_strict(limit: u16, connection: *mut [usize; 9]) -> u64;
    fn ntske_feed_request(
        connection: *mut [usize; 9],
        piece: *const u8,
        piece_len: usize,
        buffer: *mut u8,
        buffer_len: usize,
        table: *mut u16,
        table_len: usize,
        answer: *mut [usize; 10],
    ) -> u64;
    fn ntske_close_request(
        connection: *mut [usize; 9],
        buffer: *mut u8,
        buffer_len: usize,
        table: *mut u16,
        table_len: usize,
        answer: *mut [usize; 10],
    ) -> u64;
    fn ntske_feed_reply(
        connection: *mut [usize; 9],
        piece: *const u8,
        piece_len: usize,
        protocols: *const u16,
        protocols_len: usize,
        algorithms: *const u16,
        algorithms_len: usize,
        buffer: *mut u8,
        buffer_len: usize,
        table: *mut u16,
        table_len: usize,
        answer: *mut [usize; 9],
    ) -> u64;
    fn ntske_close_reply(
        connection: *mut [usize; 9],
        protocols: *const u16,
        protocols_len: usize,
        algorithms: *const u16,
        algorithms_len: usize,
        buffer: *mut u8,
        buffer_len: usize,
        table: *mut u16,
        table_len: usize,
        answer: *mut [usize; 9],
    ) -> u64;
    fn ntske_read_record(message: *const u8, message_len: usize, place: usize, answer: *mut [usize; 8]) -> u64;
    fn ntske_bit_named(kind: u16) -> u64;
    fn ntske_is_utf8(bytes: *const u8, bytes_len: usize) -> u64;
    fn ntske_part(message: *const u8, message_len: usize, start: usize, len: usize, answer: *mut [usize; 2]) -> u64;
    fn ntske_entry(
        message: *const u8,
        message_len: usize,
        table: *const u16,
        table_len: usize,
        index: usize,
        answer: *mut [usize; 2],
    ) -> u64;
    fn ntske_number(
        message: *const u8,
        message_len: usize,
        start: usize,
        len: usize,
        index: usize,
        answer: *mut [usize; 3],
    ) -> u64;
    fn ntske_pair(
        message: *const u8,
        message_len: usize,
        start: usize,
        len: usize,
        index: usize,
        answer: *mut [usize; 3],
    ) -> u64;
    fn ntske_choose(
        protocols: *const u8,
        protocols_len: usize,
        algorithms: *const u8,
        algorithms_len: usize,
        own_protocols: *const u16,
        own_protocols_len: usize,
        own_algorithms: *const u16,
        own_algorithms_len: usize,
        answer: *mut [usize; 2],
    ) -> u64;
    fn ntske_choose_protocol(
        protocols: *const u8,
        protocols_len: usize,
        own_protocols: *const u16,
        own_protocols_len: usize,
        answer: *mut [usize; 1],
    ) -> u64;
    fn ntske_key_length(algorithm: u16, answer: *mut [usize; 1]) -> u64;
    fn ntske_version() -> u64;
    fn ntske_plan_new(protocol: u16, algorithm: u16, plan: *mut [usize; 8]) -> u64;
    fn ntske_plan_set_port(plan: *mut [usize; 8], port: u16) -> u64;
    fn ntske_plan_clear_port(plan: *mut [usize; 8]) -> u64;
    fn ntske_plan_set_name_length(plan: *mut [usize; 8], length: u16) -> u64;
    fn ntske_plan_clear_name_length(plan: *mut [usize; 8]) -> u64;
    fn ntske_plan_set_keep_alive(plan: *mut [usize; 8]) -> u64;
    fn ntske_plan_clear_keep_alive(plan: *mut [usize; 8]) -> u64;
    fn ntske_plan_append(
        plan: *mut [usize; 8],
        cookie: *const u8,
        cookie_len: usize,
        tray: *mut u8,
        tray_len: usize,
    ) -> u64;
    fn ntske_plan_length(plan: *const [usize; 8], tray: *const u8, tray_len: usize, length: *mut [usize; 1]) -> u64;
    fn ntske_write_reply(
        plan: *const [usize; 8],
        tray: *const u8,
        tray_len: usize,
        server: *const u8,
        server_len: usize,
        out: *mut u8,
        out_len: usize,
        written: *mut [usize; 1],
    ) -> u64;
    fn ntske_write_no_protocol(out: *mut u8, out_len: usize, written: *mut [usize; 1]) -> u64;
    fn ntske_write_no_algorithm(protocol: u16, out: *mut u8, out_len: usize, written: *mut [usize; 1]) -> u64;
    fn ntske_write_error(code: u16, out: *mut u8, out_len: usize, written: *mut [usize; 1]) -> u64;
    fn ntske_write_support_reply(
        asked: u8,
        pairs: *const u16,
        pairs_len: usize,
        protocols: *const u16,
        protocols_len: usize,
        out: *mut u8,
        out_len: usize,
        written: *mut [usize; 1],
    ) -> u64;
    fn ntske_support_reply_length(
        asked: u8,
        pairs: *const u16,
        pairs_len: usize,
        protocols: *const u16,
        protocols_len: usize,
        length: *mut [usize; 1],
    ) -> u64;
    fn ntske_write_request(
        protocols: *const u16,
        protocols_len: usize,
        algorithms: *const u16,
        algorithms_len: usize,
        tray: *const u8,
        tray_len: usize,
        used: usize,
        out: *mut u8,
        out_len: usize,
        written: *mut [usize; 1],
    ) -> u64;
    fn ntske_request_length(
        protocols: *const u16,
        protocols_len: usize,
        algorithms: *const u16,
        algorithms_len: usize,
        tray: *const u8,
        tray_len: usize,
        used: usize,
        length: *mut [usize; 1],
    ) -> u64;
    fn ntske_append_denied(
        name: *const u8,
        name_len: usize,
        tray: *mut u8,
        tray_len: usize,
        used: *mut [usize; 1],
    ) -> u64;
    fn ntske_write_record(
        item: *const [usize; 7],
        source: *const u8,
        source_len: usize,
        out: *mut u8,
        out_len: usize,
        written: *mut [usize; 1],
    ) -> u64;
    fn ntske_record_length(
        item: *const [usize; 7],
        source: *const u8,
        source_len: usize,
        length: *mut [usize; 1],
    ) -> u64;
    fn ntske_list(
        message: *const u8,
        message_len: usize,
        limit: u16,
        room: usize,
        out: *mut u8,
        out_len: usize,
        written: *mut [usize; 1],
    ) -> u64;
}

/// A request that was read: its sort, and what belongs to it.
pub type RequestCells = [usize; 10];

/// A reply that was read.
pub type ReplyCells = [usize; 9];

/// What a walk over a request found.
pub type FindingCells = [u16; 48];

/// A read in pieces.
pub type ConnectionCells = [usize; 9];

/// The word of a call after which the read waits: not 0, and no refusal's.
pub const WAITING: u64 = 65_535;

/// A record that was read, and the place after it.
pub type ReadCells = [usize; 8];

/// A record that is to be written: as it was read, without the place after it.
pub type RecordCells = [usize; 7];

/// A plan.
pub type PlanCells = [usize; 8];

/// One number: a length, a count of bytes, or a protocol.
pub type Count = [usize; 1];

// ---- slices of numbers of one kind as slices of u16

#[inline]
fn protocol_numbers(list: &[NextProtocol]) -> &[u16] {
    // Safety: NextProtocol is transparent over u16, so the slice has the same place, length and life.
    unsafe { core::slice::from_raw_parts(list.as_ptr().cast(), list.len()) }
}

#[inline]
fn algorithm_numbers(list: &[AeadAlgorithm]) -> &[u16] {
    // Safety: AeadAlgorithm is transparent over u16, so the slice has the same place, length and life.
    unsafe { core::slice::from_raw_parts(list.as_ptr().cast(), list.len()) }
}

#[inline]
fn pair_numbers(list: &[AlgorithmDescription]) -> &[u16] {
    // Safety: AlgorithmDescription is in C's layout, two u16 and no padding, so the slice has twice as many of them.
    unsafe { core::slice::from_raw_parts(list.as_ptr().cast(), 2 * list.len()) }
}

// ---- reading

#[inline]
pub fn read_request(message: &[u8], limit: u16, table: &mut [u16], answer: &mut RequestCells) -> u64 {
    // Safety: message and table are slices, answer an array; the last two are borrowed alone.
    unsafe { ntske_read_request(message.as_ptr(), message.len(), limit, table.as_mut_ptr(), table.len(), answer) }
}

#[inline]
pub fn read_reply(
    message: &[u8],
    limit: u16,
    protocols: &[NextProtocol],
    algorithms: &[AeadAlgorithm],
    table: &mut [u16],
    answer: &mut ReplyCells,
) -> u64 {
    let (protocols, algorithms) = (protocol_numbers(protocols), algorithm_numbers(algorithms));
    // Safety: message, lists and table are slices, answer an array; the last two are borrowed alone.
    unsafe {
        ntske_read_reply(
            message.as_ptr(),
            message.len(),
            limit,
            protocols.as_ptr(),
            protocols.len(),
            algorithms.as_ptr(),
            algorithms.len(),
            table.as_mut_ptr(),
            table.len(),
            answer,
        )
    }
}

#[inline]
pub fn read_request_strict(message: &[u8], limit: u16, table: &mut [u16], answer: &mut RequestCells) -> u64 {
    let (table_len, table) = (table.len(), table.as_mut_ptr());
    // Safety: message and table are slices, answer an array; the last two are borrowed alone.
    unsafe { ntske_read_request_strict(message.as_ptr(), message.len(), limit, table, table_len, answer) }
}

#[inline]
pub fn read_reply_strict(
    message: &[u8],
    limit: u16,
    protocols: &[NextProtocol],
    algorithms: &[AeadAlgorithm],
    table: &mut [u16],
    answer: &mut ReplyCells,
) -> u64 {
    let (protocols, algorithms) = (protocol_numbers(protocols), algorithm_numbers(algorithms));
    // Safety: message, lists and table are slices, answer an array; the last two are borrowed alone.
    unsafe {
        ntske_read_reply_strict(
            message.as_ptr(),
            message.len(),
            limit,
            protocols.as_ptr(),
            protocols.len(),
            algorithms.as_ptr(),
            algorithms.len(),
            table.as_mut_ptr(),
            table.len(),
            answer,
        )
    }
}

#[inline]
pub fn walk_request(message: &[u8], limit: u16, finding: &mut FindingCells) -> u64 {
    // Safety: message is a slice, and finding an array that is borrowed alone.
    unsafe { ntske_walk_request(message.as_ptr(), message.len(), limit, finding) }
}

#[inline]
pub fn decide_request(finding: &FindingCells, message: &[u8], table: &mut [u16], answer: &mut RequestCells) -> u64 {
    // Safety: message and table are slices, the others arrays; the last two are borrowed alone.
    unsafe { ntske_decide_request(finding, message.as_ptr(), message.len(), table.as_mut_ptr(), table.len(), answer) }
}

#[inline]
pub fn connection_new(limit: u16, connection: &mut ConnectionCells) -> u64 {
    // Safety: connection is an array that is borrowed alone.
    unsafe { ntske_connection_new(limit, connection) }
}

#[inline]
pub fn connection_new_strict(limit: u16, connection: &mut ConnectionCells) -> u64 {
    // Safety: connection is an array that is borrowed alone.
    unsafe { ntske_connection_new_strict(limit, connection) }
}

#[inline]
pub fn feed_request(
    connection: &mut ConnectionCells,
    piece: &[u8],
    buffer: &mut [u8],
    table: &mut [u16],
    answer: &mut RequestCells,
) -> u64 {
    let (buffer_len, table_len) = (buffer.len(), table.len());
    let (buffer, table) = (buffer.as_mut_ptr(), table.as_mut_ptr());
    // Safety: piece, buffer and table are slices, the others arrays; all but the piece are borrowed alone.
    unsafe { ntske_feed_request(connection, piece.as_ptr(), piece.len(), buffer, buffer_len, table, table_len, answer) }
}

#[inline]
pub fn close_request(
    connection: &mut ConnectionCells,
    buffer: &mut [u8],
    table: &mut [u16],
    answer: &mut RequestCells,
) -> u64 {
    let (buffer_len, table_len) = (buffer.len(), table.len());
    // Safety: buffer and table are slices, the others arrays; all are borrowed alone.
    unsafe { ntske_close_request(connection, buffer.as_mut_ptr(), buffer_len, table.as_mut_ptr(), table_len, answer) }
}

#[inline]
pub fn feed_reply(
    connection: &mut ConnectionCells,
    piece: &[u8],
    protocols: &[NextProtocol],
    algorithms: &[AeadAlgorithm],
    buffer: &mut [u8],
    table: &mut [u16],
    answer: &mut ReplyCells,
) -> u64 {
    let (protocols, algorithms) = (protocol_numbers(protocols), algorithm_numbers(algorithms));
    // Safety: piece, lists, buffer and table are slices, the others arrays; all but piece and lists are borrowed alone.
    unsafe {
        ntske_feed_reply(
            connection,
            piece.as_ptr(),
            piece.len(),
            protocols.as_ptr(),
            protocols.len(),
            algorithms.as_ptr(),
            algorithms.len(),
            buffer.as_mut_ptr(),
            buffer.len(),
            table.as_mut_ptr(),
            table.len(),
            answer,
        )
    }
}

#[inline]
pub fn close_reply(
    connection: &mut ConnectionCells,
    protocols: &[NextProtocol],
    algorithms: &[AeadAlgorithm],
    buffer: &mut [u8],
    table: &mut [u16],
    answer: &mut ReplyCells,
) -> u64 {
    let (protocols, algorithms) = (protocol_numbers(protocols), algorithm_numbers(algorithms));
    // Safety: lists, buffer and table are slices, the others arrays; all but the lists are borrowed alone.
    unsafe {
        ntske_close_reply(
            connection,
            protocols.as_ptr(),
            protocols.len(),
            algorithms.as_ptr(),
            algorithms.len(),
            buffer.as_mut_ptr(),
            buffer.len(),
            table.as_mut_ptr(),
            table.len(),
            answer,
        )
    }
}

#[inline]
pub fn read_record(message: &[u8], place: usize, answer: &mut ReadCells) -> u64 {
    // Safety: message is a slice, and answer an array that is borrowed alone.
    unsafe { ntske_read_record(message.as_ptr(), message.len(), place, answer) }
}

#[inline]
pub fn bit_named(kind: u16) -> u64 {
    // Safety: nothing is lent.
    unsafe { ntske_bit_named(kind) }
}

#[inline]
pub fn is_utf8(bytes: &[u8]) -> u64 {
    // Safety: bytes is a slice.
    unsafe { ntske_is_utf8(bytes.as_ptr(), bytes.len()) }
}

#[inline]
pub fn list(message: &[u8], limit: u16, room: usize, out: &mut [u8], written: &mut Count) -> u64 {
    // Safety: message and out are slices, written an array; the last two are borrowed alone.
    unsafe { ntske_list(message.as_ptr(), message.len(), limit, room, out.as_mut_ptr(), out.len(), written) }
}

// ---- handing out

#[inline]
pub fn part(message: &[u8], start: usize, len: usize, answer: &mut [usize; 2]) -> u64 {
    // Safety: message is a slice, and answer an array that is borrowed alone.
    unsafe { ntske_part(message.as_ptr(), message.len(), start, len, answer) }
}

#[inline]
pub fn entry(message: &[u8], table: &[u16], index: usize, answer: &mut [usize; 2]) -> u64 {
    // Safety: message and table are slices, and answer an array that is borrowed alone.
    unsafe { ntske_entry(message.as_ptr(), message.len(), table.as_ptr(), table.len(), index, answer) }
}

#[inline]
pub fn number(message: &[u8], start: usize, len: usize, index: usize, answer: &mut [usize; 3]) -> u64 {
    // Safety: message is a slice, and answer an array that is borrowed alone.
    unsafe { ntske_number(message.as_ptr(), message.len(), start, len, index, answer) }
}

#[inline]
pub fn pair(message: &[u8], start: usize, len: usize, index: usize, answer: &mut [usize; 3]) -> u64 {
    // Safety: message is a slice, and answer an array that is borrowed alone.
    unsafe { ntske_pair(message.as_ptr(), message.len(), start, len, index, answer) }
}

#[inline]
pub fn version() -> u64 {
    // Safety: nothing is lent.
    unsafe { ntske_version() }
}

// ---- choosing

#[inline]
pub fn choose(
    protocols: &[u8],
    algorithms: &[u8],
    own_protocols: &[NextProtocol],
    own_algorithms: &[AeadAlgorithm],
    answer: &mut [usize; 2],
) -> u64 {
    let (own_protocols, own_algorithms) = (protocol_numbers(own_protocols), algorithm_numbers(own_algorithms));
    // Safety: the four lists are slices, and answer an array that is borrowed alone.
    unsafe {
        ntske_choose(
            protocols.as_ptr(),
            protocols.len(),
            algorithms.as_ptr(),
            algorithms.len(),
            own_protocols.as_ptr(),
            own_protocols.len(),
            own_algorithms.as_ptr(),
            own_algorithms.len(),
            answer,
        )
    }
}

#[inline]
pub fn choose_protocol(protocols: &[u8], own_protocols: &[NextProtocol], answer: &mut Count) -> u64 {
    let own = protocol_numbers(own_protocols);
    // Safety: both lists are slices, and answer an array that is borrowed alone.
    unsafe { ntske_choose_protocol(protocols.as_ptr(), protocols.len(), own.as_ptr(), own.len(), answer) }
}

#[inline]
pub fn key_length(algorithm: u16, answer: &mut Count) -> u64 {
    // Safety: answer is an array that is borrowed alone.
    unsafe { ntske_key_length(algorithm, answer) }
}

// ---- the plan

#[inline]
pub fn plan_new(protocol: u16, algorithm: u16, plan: &mut PlanCells) -> u64 {
    // Safety: plan is an array that is borrowed alone.
    unsafe { ntske_plan_new(protocol, algorithm, plan) }
}

#[inline]
pub fn plan_set_port(plan: &mut PlanCells, port: u16) -> u64 {
    // Safety: plan is an array that is borrowed alone.
    unsafe { ntske_plan_set_port(plan, port) }
}

#[inline]
pub fn plan_clear_port(plan: &mut PlanCells) -> u64 {
    // Safety: plan is an array that is borrowed alone.
    unsafe { ntske_plan_clear_port(plan) }
}

#[inline]
pub fn plan_set_name_length(plan: &mut PlanCells, length: u16) -> u64 {
    // Safety: plan is an array that is borrowed alone.
    unsafe { ntske_plan_set_name_length(plan, length) }
}

#[inline]
pub fn plan_clear_name_length(plan: &mut PlanCells) -> u64 {
    // Safety: plan is an array that is borrowed alone.
    unsafe { ntske_plan_clear_name_length(plan) }
}

#[inline]
pub fn plan_set_keep_alive(plan: &mut PlanCells) -> u64 {
    // Safety: plan is an array that is borrowed alone.
    unsafe { ntske_plan_set_keep_alive(plan) }
}

#[inline]
pub fn plan_clear_keep_alive(plan: &mut PlanCells) -> u64 {
    // Safety: plan is an array that is borrowed alone.
    unsafe { ntske_plan_clear_keep_alive(plan) }
}

#[inline]
pub fn plan_append(plan: &mut PlanCells, cookie: &[u8], tray: &mut [u8]) -> u64 {
    // Safety: plan is an array, cookie and tray are slices; the first and the last are borrowed alone.
    unsafe { ntske_plan_append(plan, cookie.as_ptr(), cookie.len(), tray.as_mut_ptr(), tray.len()) }
}

#[inline]
pub fn plan_length(plan: &PlanCells, tray: &[u8], length: &mut Count) -> u64 {
    // Safety: plan and length are arrays, tray is a slice; length is borrowed alone.
    unsafe { ntske_plan_length(plan, tray.as_ptr(), tray.len(), length) }
}

// ---- writing

#[inline]
pub fn write_reply(plan: &PlanCells, tray: &[u8], server: &[u8], out: &mut [u8], written: &mut Count) -> u64 {
    // Safety: plan and written are arrays, tray, server and out are slices; the last two are borrowed alone.
    unsafe {
        ntske_write_reply(
            plan,
            tray.as_ptr(),
            tray.len(),
            server.as_ptr(),
            server.len(),
            out.as_mut_ptr(),
            out.len(),
            written,
        )
    }
}

#[inline]
pub fn write_no_protocol(out: &mut [u8], written: &mut Count) -> u64 {
    // Safety: out is a slice and written an array; both are borrowed alone.
    unsafe { ntske_write_no_protocol(out.as_mut_ptr(), out.len(), written) }
}

#[inline]
pub fn write_no_algorithm(protocol: u16, out: &mut [u8], written: &mut Count) -> u64 {
    // Safety: out is a slice and written an array; both are borrowed alone.
    unsafe { ntske_write_no_algorithm(protocol, out.as_mut_ptr(), out.len(), written) }
}

#[inline]
pub fn write_error(code: u16, out: &mut [u8], written: &mut Count) -> u64 {
    // Safety: out is a slice and written an array; both are borrowed alone.
    unsafe { ntske_write_error(code, out.as_mut_ptr(), out.len(), written) }
}

#[inline]
pub fn write_support_reply(
    asked: u8,
    pairs: &[AlgorithmDescription],
    protocols: &[NextProtocol],
    out: &mut [u8],
    written: &mut Count,
) -> u64 {
    let (pairs, protocols) = (pair_numbers(pairs), protocol_numbers(protocols));
    // Safety: pairs, protocols and out are slices, written an array; the last two are borrowed alone.
    unsafe {
        ntske_write_support_reply(
            asked,
            pairs.as_ptr(),
            pairs.len(),
            protocols.as_ptr(),
            protocols.len(),
            out.as_mut_ptr(),
            out.len(),
            written,
        )
    }
}

#[inline]
pub fn support_reply_length(
    asked: u8,
    pairs: &[AlgorithmDescription],
    protocols: &[NextProtocol],
    length: &mut Count,
) -> u64 {
    let (pairs, protocols) = (pair_numbers(pairs), protocol_numbers(protocols));
    // Safety: pairs and protocols are slices, and length an array that is borrowed alone.
    unsafe {
        ntske_support_reply_length(asked, pairs.as_ptr(), pairs.len(), protocols.as_ptr(), protocols.len(), length)
    }
}

#[inline]
pub fn append_denied(name: &[u8], tray: &mut [u8], used: &mut Count) -> u64 {
    // Safety: name and tray are slices, used an array; the last two are borrowed alone.
    unsafe { ntske_append_denied(name.as_ptr(), name.len(), tray.as_mut_ptr(), tray.len(), used) }
}

#[inline]
pub fn write_request(
    protocols: &[NextProtocol],
    algorithms: &[AeadAlgorithm],
    tray: &[u8],
    used: usize,
    out: &mut [u8],
    written: &mut Count,
) -> u64 {
    let (protocols, algorithms) = (protocol_numbers(protocols), algorithm_numbers(algorithms));
    // Safety: protocols, algorithms, tray and out are slices, written an array; the last two are borrowed alone.
    unsafe {
        ntske_write_request(
            protocols.as_ptr(),
            protocols.len(),
            algorithms.as_ptr(),
            algorithms.len(),
            tray.as_ptr(),
            tray.len(),
            used,
            out.as_mut_ptr(),
            out.len(),
            written,
        )
    }
}

#[inline]
pub fn request_length(
    protocols: &[NextProtocol],
    algorithms: &[AeadAlgorithm],
    tray: &[u8],
    used: usize,
    length: &mut Count,
) -> u64 {
    let (protocols, algorithms) = (protocol_numbers(protocols), algorithm_numbers(algorithms));
    // Safety: protocols, algorithms and tray are slices, and length an array that is borrowed alone.
    unsafe {
        ntske_request_length(
            protocols.as_ptr(),
            protocols.len(),
            algorithms.as_ptr(),
            algorithms.len(),
            tray.as_ptr(),
            tray.len(),
            used,
            length,
        )
    }
}

#[inline]
pub fn write_record(item: &RecordCells, source: &[u8], out: &mut [u8], written: &mut Count) -> u64 {
    // Safety: item and written are arrays, source and out are slices; the last two are borrowed alone.
    unsafe { ntske_write_record(item, source.as_ptr(), source.len(), out.as_mut_ptr(), out.len(), written) }
}

#[inline]
pub fn record_length(item: &RecordCells, source: &[u8], length: &mut Count) -> u64 {
    // Safety: item and length are arrays, source is a slice; length is borrowed alone.
    unsafe { ntske_record_length(item, source.as_ptr(), source.len(), length) }
}
