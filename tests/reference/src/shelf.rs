//! The versions standing: the shelf that demand 3 measures the archive against.

use crate::keys::KeyList;
use crate::marks::{self, Mark};
use crate::version::{self, Version};
use crate::{address, archive, Outcome};

/// A plain list of received versions, numbered from 1, under a key list, and a plain list of marks.
pub struct Shelf {
    keys: KeyList,
    versions: Vec<Version>,
    marks: Vec<Mark>,
}

impl Shelf {
    /// Begins with a founding that succeeded, and with no mark.
    pub fn found(keys: &[u8], version: &[u8]) -> Outcome<Shelf> {
        let keys = KeyList::read(keys)?;
        let versions = vec![version::read(&keys, version)?];
        Ok(Shelf { keys, versions, marks: vec![] })
    }

    /// An add that succeeded puts the version received at the end.
    pub fn add(&mut self, version: &[u8]) -> Outcome<()> {
        self.versions.push(version::read(&self.keys, version)?);
        Ok(())
    }

    /// A setting that succeeded puts the mark at the end.
    pub fn set_mark(&mut self, name: &[u8], i: usize) {
        self.marks.push(Mark { name: name.to_vec(), version: i });
    }

    /// A step back to i that succeeded keeps the first i, and the marks of these.
    pub fn back(&mut self, i: usize) {
        self.versions.truncate(i);
        self.marks.retain(|mark| mark.version <= i);
    }

    /// A step back by name that succeeded is one by that mark's number.
    pub fn back_to_mark(&mut self, name: &[u8]) {
        self.back(self.version_of(name));
    }

    /// The version of a mark; 0 if none has the name.
    pub fn version_of(&self, name: &[u8]) -> usize {
        self.marks.iter().find(|mark| mark.name == name).map_or(0, |mark| mark.version)
    }

    /// The table of the shelf's marks, as C passes it.
    pub fn table(&self) -> Vec<u8> {
        marks::bytes(&marks::table(&self.marks))
    }

    pub fn count(&self) -> usize {
        self.versions.len()
    }

    /// The archive of the shelf's versions.
    pub fn archive(&self) -> Vec<u8> {
        archive::archive(&self.keys, &self.versions).bytes
    }

    /// The archive's nodes.
    pub fn archive_nodes(&self) -> usize {
        archive::archive(&self.keys, &self.versions).nodes
    }

    /// The written form of version i.
    pub fn written(&self, i: usize) -> Vec<u8> {
        version::written(&self.keys, &self.versions[i - 1]).bytes
    }

    /// The text of the set of numbers whose versions hold the address.
    pub fn history(&self, address: &[u8]) -> Outcome<Vec<u8>> {
        let address = address::read(&self.keys, address)?;
        Ok(address::history(&self.keys, &self.versions, &address))
    }
}
