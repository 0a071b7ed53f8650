//! The C functions as they are: numbers and slices in, an array of numbers out.
//!
//! An answer is filled whole: first the number of the refusal, 0 where the call is accepted; then
//! the figures, or the two values of the refusal; then zeros. The crate's other types say the same
//! in words; this module is for programs that keep or compare the numbers themselves.
//!
//! ```
//! use nuldrafon::raw;
//! // 8 records of 8 bytes in nodes of 40, offsets of 8: depth 2, 7 nodes, 4 leaves, 280 bytes.
//! assert_eq!(raw::plan(8, 8, 40, 8), [0, 2, 7, 4, 280]);
//! // Refused by 4: there is no offset size 3.
//! assert_eq!(raw::plan(8, 8, 40, 3), [4, 3, 0, 0, 0]);
//! ```

/// What every place of an answer holds before the call, so that one that is left shows.
const UNSET: u64 = u64::MAX;

/// Declares C functions, and for each the function that calls it. A slice goes over as a pointer
/// and a length, everything else as it is, and the answer behind all of them.
macro_rules! calls {
    ($($(#[$doc:meta])* $name:ident = $symbol:ident($($given:tt)*) -> [u64; $places:literal];)*) => {
        $(calls!(@next [$(#[$doc])*] [$name $symbol $places] [] [] [] $($given)*);)*
    };
    (@next $doc:tt $head:tt [$($own:tt)*] [$($c:tt)*] [$($over:tt)*]
     $slice:ident: &[u8], $($rest:tt)*) => {
        calls!(@next $doc $head [$($own)* $slice: &[u8],] [$($c)* _: *const u8, _: usize,]
               [$($over)* $slice.as_ptr(), $slice.len(),] $($rest)*);
    };
    (@next $doc:tt $head:tt [$($own:tt)*] [$($c:tt)*] [$($over:tt)*]
     $slice:ident: &mut [u8], $($rest:tt)*) => {
        calls!(@next $doc $head [$($own)* $slice: &mut [u8],] [$($c)* _: *mut u8, _: usize,]
               [$($over)* $slice.as_mut_ptr(), $slice.len(),] $($rest)*);
    };
    (@next $doc:tt $head:tt [$($own:tt)*] [$($c:tt)*] [$($over:tt)*]
     $one:ident: $kind:ty, $($rest:tt)*) => {
        calls!(@next $doc $head [$($own)* $one: $kind,] [$($c)* _: $kind,]
               [$($over)* $one,] $($rest)*);
    };
    (@next [$($doc:tt)*] [$name:ident $symbol:ident $places:literal]
     [$($own:tt)*] [$($c:tt)*] [$($over:tt)*]) => {
        $($doc)*
        #[inline]
        #[allow(clippy::too_many_arguments)]
        pub fn $name($($own)*) -> [u64; $places] {
            extern "C" {
                fn $symbol($($c)* _: &mut [u64; $places]);
            }
            let mut answer = [UNSET; $places];
            // SAFETY: the declaration is the C function's. Each pointer goes over with the length
            // of its slice, or is that of an array whose length the declaration says; all are lent
            // for the whole call, and those that are written to are lent to it alone.
            unsafe { $symbol($($over)* &mut answer) };
            answer
        }
    };
}

// In the order of include/btree_v2.h.
calls! {
    /// The capacity table up to `depth`. Answer: 0; width of a record count; and for the levels 0
    /// to 32 the records of a node, then those of a subtree, then the width of a subtree's total;
    /// zeros above `depth`. Refusal: 16.
    node_info = btree_v2_node_info(
        node_size: u32, record_size: u16, offset_size: u8, depth: u16,
    ) -> [u64; 101];

    /// The tree that so many records take. Answer: 0, depth, nodes, leaves, size of the image.
    /// Refusals in this order: 4, 7, 8, 9, 10, 11.
    plan = btree_v2_plan(
        record_count: u64, record_size: u16, node_size: u32, offset_size: u8,
    ) -> [u64; 5];

    /// Writes the header and the node image of the records; bytes of longer buffers stay. Answer:
    /// as that of the plan. Refusals in this order: 4, 5, 7 to 15, the header's length before the
    /// image's; nothing is written then.
    write = btree_v2_write(
        tree_type: u8, record_count: u64, record_size: u16, node_size: u32, offset_size: u8,
        length_size: u8, start: u64, records: &[u8], header: &mut [u8], image: &mut [u8],
    ) -> [u64; 5];

    /// Reads the header at `offset` of the file. Answer: 0, tree type, node size, record size,
    /// depth, address of the root, records of the root, records in all. Refusals: 1 to 6.
    parse = btree_v2_parse(
        file: &[u8], offset: u64, offset_size: u8, length_size: u8,
    ) -> [u64; 8];

    /// Reads the header at `offset` of the part of the file from `base` on. Answer: as that of
    /// [`parse`] of this part, then the base, 0 where refused. Refusals: 18, then 1 to 6.
    parse_at = btree_v2_parse_at(
        file: &[u8], base: u64, offset: u64, offset_size: u8, length_size: u8,
    ) -> [u64; 9];

    /// Puts the records of a tree in the file end to end into the output, whose other bytes stay.
    /// Answer: 0 or the refusal's number; its two values; and, refused or not, records put out,
    /// leaves read, internal nodes read, records put out that are from internal nodes. Refusals:
    /// 1, 2, 4, 6, 8, 15, 16.
    collect = btree_v2_collect(
        file: &[u8], tree_type: u8, node_size: u32, record_size: u16, depth: u16,
        root_address: u64, root_records: u16, total_records: u64, offset_size: u8,
        output: &mut [u8],
    ) -> [u64; 7];

    /// [`collect`] of the part of the file from the header's base on. The header's figures are
    /// those behind the 0 of [`parse_at`]'s answer; one above its field's range counts modulo 2^8,
    /// 2^32, 2^16, 2^16, 2^64, 2^16, 2^64, 2^64. Refusals: 18, then those of [`collect`].
    collect_at = btree_v2_collect_at(
        file: &[u8], header: &[u64; 8], offset_size: u8, output: &mut [u8],
    ) -> [u64; 7];

    /// Copies record `index` of the leaf at `address` of the file, which has `count` records, to
    /// the front of the output; the record is empty where `index` is not below `count`. Answer: 0,
    /// length of the record, 0. Refusals in this order: 8, 1, 2, 1, 6, 15; nothing is written then.
    leaf_record = btree_v2_leaf_record(
        file: &[u8], address: u64, count: u16, record_size: u16, index: u64, output: &mut [u8],
    ) -> [u64; 3];

    /// [`leaf_record`] of the part of the file from `base` on. Refusals in this order: 18, then
    /// those of [`leaf_record`].
    leaf_record_at = btree_v2_leaf_record_at(
        file: &[u8], base: u64, address: u64, count: u16, record_size: u16, index: u64,
        output: &mut [u8],
    ) -> [u64; 3];

    /// Finds a record by its key, the number of `key_width` bytes from `key_start` of the record
    /// on. The header's figures are those behind the 0 of [`parse`]'s answer; one above its
    /// field's range counts modulo 2^8, 2^32, 2^16, 2^16, 2^64, 2^16, 2^64. Answer: 0 or the
    /// refusal's number; its two values; nodes read, refused or not; 1 where a record was found,
    /// else 0; its place in the file, 0 where none was found. Refusals in this order: 8, 16, 17,
    /// those of the nodes on the descent (1, 2, 4, 6).
    find = btree_v2_find(
        file: &[u8], header: &[u64; 7], offset_size: u8, key_start: u64, key_width: u64, key: u64,
    ) -> [u64; 6];

    /// [`find`] in the part of the file from the header's base on, with a header's figures as
    /// [`collect_at`] takes them; the place counts from the base. Refusals in this order: 18, then
    /// those of [`find`].
    find_at = btree_v2_find_at(
        file: &[u8], header: &[u64; 8], offset_size: u8, key_start: u64, key_width: u64, key: u64,
    ) -> [u64; 6];

    /// Reads the values of a record of a tree of this type. Answer: 0, name hash, heap id, message
    /// flags, creation order; 0 for one whose field the type lacks. Refusals in this order: 19, 20.
    record_read = btree_v2_record_read(tree_type: u8, record: &[u8],) -> [u64; 5];

    /// Writes the record of these values to the front of the output, whose other bytes stay.
    /// Answer: 0, length of the record, 0. Refusals in this order: 19, 20, 15; nothing is written
    /// then.
    record_write = btree_v2_record_write(
        tree_type: u8, name_hash: u64, heap_id: u64, message_flags: u64, creation_order: u64,
        output: &mut [u8],
    ) -> [u64; 3];
}

/// The lookup3 checksum of `data`, start value 0: the one that HDF5 has for its metadata.
///
/// ```
/// assert_eq!(nuldrafon::jenkins_lookup3(b"Four score and seven years ago"), 0x1777_0551);
/// assert_eq!(nuldrafon::jenkins_lookup3(b""), 0xdead_beef);
/// ```
#[inline]
pub fn jenkins_lookup3(data: &[u8]) -> u32 {
    extern "C" {
        fn checksum_jenkins_lookup3(_: *const u8, _: usize) -> u32;
    }
    // SAFETY: the pointer and the length are those of a slice that is lent for the whole call, and
    // the function only reads it.
    unsafe { checksum_jenkins_lookup3(data.as_ptr(), data.len()) }
}
