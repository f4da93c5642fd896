//! Code hashes. The two block hash checks of a cycle are left to the caller, so every hash is valid here.

pub trait VersionedHashLen32 {
    fn is_valid(hash: &[u8; 32]) -> bool;
}

pub struct ContractCodeSha256Format;

impl VersionedHashLen32 for ContractCodeSha256Format {
    fn is_valid(_: &[u8; 32]) -> bool {
        true
    }
}

#[derive(Clone, Copy, Debug, PartialEq, Eq)]
pub struct VersionedHashHeader;

#[derive(Clone, Copy, Debug, PartialEq, Eq)]
pub struct VersionedHashNormalizedPreimage;
