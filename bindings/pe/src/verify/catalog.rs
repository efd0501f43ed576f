//! Catalogs: signed lists of digests, by which Windows trusts images that have no signature of their own. A `.cat` file is PKCS #7 signed
//! data of a certificate trust list
//! ([MS-CAESO](https://learn.microsoft.com/openspecs/windows_protocols/ms-caeso/6d2f0bb8-7f5f-4e2c-8b1b-ecf3d7ddc5a3)). A member of it has
//! the digest of an image as Authenticode has it, `SpcIndirectDataContent`, or as its identifier alone.

use super::der::{
    content_of, digest_info, elements, page_hashes, Element, OBJECT_IDENTIFIER, OCTET_STRING, SEQUENCE, SET,
};
use super::hashing::{Compared, Digests, Hash};
use super::{tell_signers, Roots, Signature, SIGNERS};
use crate::facts::{hex_of, Origin};
use serde::Serialize;
use std::collections::{BTreeMap, BTreeSet};
use std::path::{Path, PathBuf};

/// A certificate trust list, 1.3.6.1.4.1.311.10.1.
const TRUST_LIST: &[u8] = &[0x2B, 6, 1, 4, 1, 0x82, 0x37, 10, 1];
/// `SPC_INDIRECT_DATA_OBJID`, 1.3.6.1.4.1.311.2.1.4.
const INDIRECT_DATA: &[u8] = &[0x2B, 6, 1, 4, 1, 0x82, 0x37, 2, 1, 4];
const TIMES: [u8; 2] = [0x17, 0x18];

/// A digest and its algorithm.
type Key = (Hash, Vec<u8>);
/// A table of hashes of pages.
type Table = (Hash, Vec<u8>);

/// An image that a catalog lists.
pub struct Member {
    /// Which member it is, from 0.
    pub entry: usize,
    pub tables: Vec<Table>,
}

/// A catalog, and what its signature says.
pub struct Catalog {
    path: PathBuf,
    members: BTreeMap<Key, Member>,
    hashes: BTreeSet<Hash>,
    entries: usize,
    /// How many of the entries have no digest that is read here: an image that is one of these is not found.
    entries_not_read: usize,
    signature: Signature,
    /// Whether it has more signers than are told, or nested signatures.
    pub is_limited: bool,
}

/// What is said of a catalog beside an image.
#[derive(Debug, Serialize)]
pub struct Listed {
    pub file: String,
    pub file_hex: Option<String>,
    pub entries: usize,
    pub entries_not_read: usize,
    pub is_listed: bool,
}

/// The members of a list: after its times stand an algorithm and these.
fn members_of(list: &[u8]) -> Option<&[u8]> {
    let (fields, _) = content_of(list, SEQUENCE)?;
    let after_time = elements(fields).skip_while(|it| !TIMES.contains(&it.tag));
    after_time.filter(|it| it.tag == SEQUENCE).nth(1).map(|it| it.content)
}

/// The digest that a member has, and the tables of hashes of pages beside it.
fn member_of(member: &Element<'_>) -> Option<(Key, Vec<Table>)> {
    let (identifier, attributes) = content_of(member.content, OCTET_STRING)?;
    let attributes = content_of(attributes, SET).map_or(&[][..], |it| it.0);
    let data = elements(attributes).find_map(|it| {
        let (kind, values) = content_of(it.content, OBJECT_IDENTIFIER)?;
        (kind == INDIRECT_DATA).then_some(content_of(content_of(values, SET)?.0, SEQUENCE)?.0)
    });
    let Some(data) = data else {
        let hash = [Hash::Sha1, Hash::Sha256].into_iter().find(|it| it.size() == identifier.len())?;
        return Some(((hash, identifier.to_vec()), Vec::new()));
    };
    let (typed, info) = content_of(data, SEQUENCE)?;
    let value = content_of(typed, OBJECT_IDENTIFIER)?.1;
    let (hash, digest) = digest_info(info)?;
    let tables = page_hashes(value).into_iter().map(|(hash, table)| (hash, table.to_vec())).collect();
    Some(((hash, digest.to_vec()), tables))
}

impl Catalog {
    /// Reads a catalog, and checks its signature once for all images.
    pub fn read(path: &Path, roots: Option<&Roots>) -> Result<Catalog, String> {
        let bytes = crate::files::whole(path).map_err(|error| error.to_string())?;
        let signature = pe_c::Signature::parse(&bytes).map_err(|error| format!("no catalog: {error}"))?;
        let list = signature.content().filter(|_| signature.content_type().octets() == TRUST_LIST);
        let members = list.and_then(members_of).ok_or("no catalog: it signs no list of digests")?;
        let mut found = Catalog {
            path: path.to_path_buf(),
            members: BTreeMap::new(),
            hashes: BTreeSet::new(),
            entries: 0,
            entries_not_read: 0,
            signature: Signature::default(),
            is_limited: false,
        };
        for member in elements(members) {
            match member_of(&member) {
                Some((key, tables)) => {
                    found.hashes.insert(key.0);
                    found.members.entry(key).or_insert(Member { entry: found.entries, tables });
                }
                None => found.entries_not_read += 1,
            }
            found.entries += 1;
        }
        let (signers, has_more) = tell_signers(&signature, roots, &mut { SIGNERS }, &mut found.signature);
        // Nested signatures of a catalog are not looked at.
        found.is_limited = has_more || signers.iter().any(|it| it.nested_signatures().next().is_some());
        Ok(found)
    }

    /// The member that has a digest of these.
    fn find(&self, digests: &mut Digests<'_>) -> Option<(Hash, &Member)> {
        self.hashes.iter().find_map(|hash| {
            let key = (*hash, digests.get(*hash).to_vec());
            self.members.get(&key).map(|it| (*hash, it))
        })
    }

    /// What is said of it beside an image, and its signature, with that of the member, where it lists the image.
    pub(super) fn beside(&self, digests: &mut Digests<'_>) -> (Listed, Option<(Signature, &Member)>) {
        let origin = Origin::of(&self.path);
        let found = self.find(digests).map(|(hash, member)| {
            let signature = Signature {
                catalog: Some(origin.file.clone()),
                entry: member.entry,
                digest_algorithm: Some(hash.name().to_string()),
                digest_hex: Some(hex_of(digests.get(hash))),
                digest: Some(Compared::Equal),
                ..self.signature.clone()
            };
            (signature.with_weak(hash), member)
        });
        let is_listed = found.is_some();
        let Origin { file, file_hex, .. } = origin;
        let Catalog { entries, entries_not_read, .. } = *self;
        (Listed { file, file_hex, entries, entries_not_read, is_listed }, found)
    }
}
