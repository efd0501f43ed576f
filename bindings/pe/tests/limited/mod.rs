//! Images of which a part has more than is shown, since its entries share names or lists.
#![allow(dead_code)]

use crate::made;

/// An image of so many exports, whose names all lead into one text of as many bytes, each to another one.
pub fn exports_in_one_text(count: u32) -> Vec<u8> {
    let mut made = made::Made::new(made::X64);
    let text = made.put(&[vec![b'a'; count as usize], vec![0]].concat());
    let names = made.put_words(&(text..text + count).collect::<Vec<_>>());
    let ordinals = made.put(&(0..count as u16).flat_map(u16::to_le_bytes).collect::<Vec<_>>());
    let addresses = made.put_words(&vec![0x1000; count as usize]);
    let directory = made.put_words(&[0, 0, 0, text, 1, count, count, addresses, names, ordinals]);
    made.directory(made::EXPORTS, directory, 40);
    made.image()
}

/// An image of two exports, one with a name of so many bytes and one with a name of one.
pub fn exports_of_a_long_name(length: u32) -> Vec<u8> {
    let mut made = made::Made::new(made::X64);
    let text = made.put(&[vec![b'a'; length as usize], vec![0]].concat());
    let short = text + length - 1;
    let names = made.put_words(&[text, short]);
    let ordinals = made.put(&[0, 0, 1, 0]);
    let addresses = made.put_words(&[0x1000; 2]);
    let directory = made.put_words(&[0, 0, 0, short, 1, 2, 2, addresses, names, ordinals]);
    made.directory(made::EXPORTS, directory, 40);
    made.image()
}

/// A list of so many ordinals.
fn ordinals(count: usize, made: &mut made::Made) -> u32 {
    made.put(&(1..=count as u64).map(|it| 1 << 63 | it).chain([0]).flat_map(u64::to_le_bytes).collect::<Vec<_>>())
}

/// An image that imports from so many DLLs, each the same list of as many ordinals.
pub fn libraries_of_one_list(count: usize) -> Vec<u8> {
    let mut made = made::Made::new(made::X64);
    let name = made.put(b"a.dll\0");
    let list = ordinals(count, &mut made);
    let directory = made.put_words(&[[list, 0, 0, name, list].repeat(count), vec![0; 5]].concat());
    made.directory(made::IMPORTS, directory, 20 * (count as u32 + 1));
    made.image()
}

/// A list of one import, whose name has so many bytes and is no text; then the name of a DLL, and the image.
fn refused_list(length: usize) -> (u32, u32, made::Made) {
    let mut made = made::Made::new(made::X64);
    let name = made.put(b"a.dll\0");
    let import = made.put(&[vec![0, 0], vec![b'a'; length], vec![0xFF, 0]].concat());
    (made.put_words(&[import, 0, 0, 0]), name, made)
}

/// An image that imports from so many DLLs, each the same function, whose name has so many bytes and is no text.
pub fn refused_imports(count: usize, length: usize) -> Vec<u8> {
    let (list, name, mut made) = refused_list(length);
    let directory = made.put_words(&[[list, 0, 0, name, list].repeat(count), vec![0; 5]].concat());
    made.directory(made::IMPORTS, directory, 20 * (count as u32 + 1));
    made.image()
}

/// The same of DLLs that are loaded later.
pub fn refused_delay_imports(count: usize, length: usize) -> Vec<u8> {
    let (list, name, mut made) = refused_list(length);
    let directory = made.put_words(&[[1, name, 0, 0, list, 0, 0, 0].repeat(count), vec![0; 8]].concat());
    made.directory(made::DELAY_IMPORTS, directory, 32 * (count as u32 + 1));
    made.image()
}

/// So many bound imports, each of which forwards to a DLL whose name has so many bytes and is no text.
pub fn refused_forwarders(count: usize, length: usize) -> Vec<u8> {
    let mut made = made::Made::new(made::X64);
    let name = 16 * count as u32 + 8;
    made.put_words(&[[1, name | 1 << 16, 1, name + 6].repeat(count), vec![0; 2]].concat());
    made.put(&[b"a.dll\0".to_vec(), vec![b'a'; length], vec![0xFF, 0]].concat());
    made.directory(made::BOUND_IMPORTS, made::OFFSET, made.content.len() as u32);
    made.image()
}

/// An image that imports so many ordinals of a DLL, whose name is 20 times as long.
pub fn imports_of_a_long_name(count: usize) -> Vec<u8> {
    let mut made = made::Made::new(made::X64);
    let name = made.put(&[vec![b'a'; 20 * count], vec![0]].concat());
    let list = ordinals(count, &mut made);
    let directory = made.put_words(&[list, 0, 0, name, list, 0, 0, 0, 0, 0]);
    made.directory(made::IMPORTS, directory, 40);
    made.image()
}

/// An image that delay-loads so many DLLs, each with the same list of as many ordinals.
pub fn delay_imports_of_one_list(count: usize) -> Vec<u8> {
    let mut made = made::Made::new(made::X64);
    let name = made.put(b"a.dll\0");
    let list = ordinals(count, &mut made);
    let directory = made.put_words(&[[1, name, 0, 0, list, 0, 0, 0].repeat(count), vec![0; 8]].concat());
    made.directory(made::DELAY_IMPORTS, directory, 32 * (count as u32 + 1));
    made.image()
}

/// An image that delay-loads so many ordinals of a DLL, whose name is 20 times as long.
pub fn delay_imports_of_a_long_name(count: usize) -> Vec<u8> {
    let mut made = made::Made::new(made::X64);
    let name = made.put(&[vec![b'a'; 20 * count], vec![0]].concat());
    let list = ordinals(count, &mut made);
    let directory = made.put_words(&[vec![1, name, 0, 0, list, 0, 0, 0], vec![0; 8]].concat());
    made.directory(made::DELAY_IMPORTS, directory, 64);
    made.image()
}

/// So many bound imports, whose names are all one text of 20 times as many bytes.
pub fn bound_imports_of_one_name(count: usize) -> Vec<u8> {
    let mut made = made::Made::new(made::X64);
    let entry = [1, 8 * (count as u32 + 1)];
    made.put_words(&[entry.repeat(count), vec![0; 2]].concat());
    made.put(&[vec![b'a'; 20 * count], vec![0]].concat());
    made.directory(made::BOUND_IMPORTS, made::OFFSET, made.content.len() as u32);
    made.image()
}

/// A bound import whose name has 20 times as many bytes as it has forwarders, each with a name of one.
pub fn forwarders_of_a_long_name(count: u32) -> Vec<u8> {
    let mut made = made::Made::new(made::X64);
    let name = 8 * (count + 2);
    let forwarders = [1, name + 20 * count - 1].repeat(count as usize);
    made.put_words(&[vec![1, count << 16 | name], forwarders, vec![0; 2]].concat());
    made.put(&[vec![b'a'; 20 * count as usize], vec![0]].concat());
    made.directory(made::BOUND_IMPORTS, made::OFFSET, made.content.len() as u32);
    made.image()
}

/// An image of one export with so many names, which leads to a name of so many bytes in another DLL.
pub fn names_of_one_forwarder(count: u32, length: usize) -> Vec<u8> {
    let mut made = made::Made::new(made::X64);
    let name = made.put(b"f\0");
    let names = made.put_words(&vec![name; count as usize]);
    let ordinals = made.put(&vec![0; 2 * count as usize]);
    // The only address is that of the text after the directory, which has both: so it is a forwarder.
    let addresses = made.put(&[]);
    made.put_words(&[addresses + 4 + 40]);
    let directory = made.put_words(&[0, 0, 0, name, 1, 1, count, addresses, names, ordinals]);
    made.put(&[&b"a."[..], &vec![b'b'; length - 2], &[0]].concat());
    made.directory(made::EXPORTS, directory, 40 + length as u32);
    made.image()
}

/// A tree of resources that has one directory of types, one of names and one of languages, each of `count` entries that lead to
/// the same one.
pub fn resources_of_shared_directories(count: u32) -> Vec<u8> {
    let mut made = made::Made::new(made::X64);
    let size = 16 + 8 * count;
    let mut tree = Vec::new();
    for target in [(1 << 31) | size, (1 << 31) | (2 * size), 3 * size] {
        tree.extend([0, 0, 0, count << 16]);
        tree.extend((1..=count).flat_map(|id| [id, target]));
    }
    tree.extend([made::ADDRESS, 4, 0, 0]);
    let root = made.put_words(&tree);
    made.directory(made::RESOURCES, root, 4 * tree.len() as u32);
    made.image()
}

/// Of each part that may have more than is shown: its name in JSON, its name in text, and an image.
pub fn all() -> [(&'static str, &'static str, Vec<u8>); 8] {
    [
        ("imports", "imports", libraries_of_one_list(1000)),
        ("imports", "imports", imports_of_a_long_name(1000)),
        ("exports", "exports", exports_in_one_text(4000)),
        ("delay_imports", "delay imports", delay_imports_of_one_list(1000)),
        ("delay_imports", "delay imports", delay_imports_of_a_long_name(1000)),
        ("bound_imports", "bound imports", bound_imports_of_one_name(1000)),
        ("bound_imports", "bound imports", forwarders_of_a_long_name(200)),
        ("resources", "resources", resources_of_shared_directories(41)),
    ]
}
