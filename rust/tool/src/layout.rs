//! Sizes inside a multiframe that the crate has no name for, each said once.
use dsr::{MULTIFRAME_OCTETS, MULTIFRAME_PAIRS, STREAM_OCTETS};

/// A multiframe begins with its sync.
pub const SYNC_OCTETS: usize = 2;
pub const SYNC_BITS: usize = 8 * SYNC_OCTETS;
/// The header stands behind the sync, and the feature stream behind the header.
pub const HEADER_BITS: usize = 8 * (MULTIFRAME_OCTETS - STREAM_OCTETS) - SYNC_BITS;
/// The feature stream is twelve packets, one for each pair.
pub const PACKET_BITS: usize = 8 * STREAM_OCTETS / MULTIFRAME_PAIRS;
/// Two flips in a packet that are so far apart, or a multiple of it, are the ones that its CRC does not see.
pub const UNSEEN: usize = 15;

#[cfg(test)]
mod tests {
    use super::{HEADER_BITS, PACKET_BITS, SYNC_BITS};

    #[test]
    fn the_sizes_are_those_of_01() {
        assert_eq!((SYNC_BITS, HEADER_BITS, PACKET_BITS), (16, 32, 92));
    }
}
