//! Icons from an .ico file: a header, an entry for each image with its offset in the file, and the images, which are PNGs or
//! bitmaps without a file header. In an executable each image is a resource of its own, of the type `RT_ICON`, and the entries
//! are one more, of the type `RT_GROUP_ICON`, which has identifiers in the place of offsets. See
//! <https://learn.microsoft.com/windows/win32/menurc/newheader>.

use pe_c::{ResourceEditor, ResourceKey};
use std::collections::{BTreeMap, BTreeSet};
use std::fmt;

/// `RT_ICON` and `RT_GROUP_ICON`.
const ICON: u16 = 3;
pub const GROUP_ICON: u16 = 14;
/// The sizes of the header, of an entry of a file, and of one of a group.
const HEADER: usize = 6;
const ENTRY: usize = 16;
const GROUP_ENTRY: usize = 14;
/// What an image starts with: the size of a `BITMAPINFOHEADER`, or the signature of a PNG.
const BITMAP: &[u8] = &[40, 0, 0, 0];
const PNG: &[u8] = b"\x89PNG\r\n\x1a\n";
/// Where a `BITMAPINFOHEADER` has its planes and its bits a pixel.
const PLANES: usize = 12;

/// Why a file is no icon.
#[derive(Clone, Copy, Debug, PartialEq, Eq)]
pub enum IconError {
    /// It does not start with the header of an icon.
    NotIcon,
    NoImages,
    /// Its entries pass the end of the file.
    EntriesEnd,
    /// An image, by its number from 1, passes the end of the file.
    ImageEnd(usize),
    /// It is neither a bitmap nor a PNG.
    ImageKind(usize),
    /// The images have more bytes than the file, so some share their bytes.
    Shared,
    /// The executable has as many icons as there are identifiers.
    NoIdentifier,
}

impl fmt::Display for IconError {
    fn fmt(&self, f: &mut fmt::Formatter<'_>) -> fmt::Result {
        match self {
            IconError::NotIcon => f.write_str("no icon file"),
            IconError::NoImages => f.write_str("icon file without images"),
            IconError::EntriesEnd => f.write_str("icon file truncated in its entries"),
            IconError::ImageEnd(number) => write!(f, "image {number} of the icon file passes its end"),
            IconError::ImageKind(number) => write!(f, "image {number} of the icon file is neither a bitmap nor a PNG"),
            IconError::Shared => f.write_str("images of the icon file share bytes"),
            IconError::NoIdentifier => f.write_str("no identifiers left for the icons"),
        }
    }
}

/// An image, and the first eight bytes of its entry: width, height, colours, a zero, planes and bits a pixel.
#[derive(Debug, PartialEq, Eq)]
pub struct IconImage<'a> {
    start: [u8; 8],
    bytes: &'a [u8],
}

fn word_at(bytes: &[u8], at: usize) -> Option<u16> {
    Some(u16::from_le_bytes(bytes.get(at..at + 2)?.try_into().ok()?))
}

fn number_at(bytes: &[u8], at: usize) -> Option<usize> {
    usize::try_from(u32::from_le_bytes(bytes.get(at..at + 4)?.try_into().ok()?)).ok()
}

/// The image of an entry. Planes and bits that the entry leaves out are those of the bitmap, or of a PNG with alpha.
fn image_of<'a>(file: &'a [u8], entry: &[u8], number: usize) -> Result<IconImage<'a>, IconError> {
    let (size, offset) = (number_at(entry, 8).unwrap_or(0), number_at(entry, 12).unwrap_or(0));
    let bytes = offset.checked_add(size).and_then(|end| file.get(offset..end)).ok_or(IconError::ImageEnd(number))?;
    let of_image = match bytes {
        _ if bytes.starts_with(PNG) => [1, 0, 32, 0],
        _ if bytes.starts_with(BITMAP) && bytes.len() >= 40 => {
            [bytes[PLANES], bytes[PLANES + 1], bytes[PLANES + 2], bytes[PLANES + 3]]
        }
        _ => return Err(IconError::ImageKind(number)),
    };
    let mut start = [0; 8];
    start.copy_from_slice(&entry[..8]);
    start[3] = 0;
    for at in [0, 2] {
        if start[4 + at..6 + at] == [0, 0] {
            start[4 + at..6 + at].copy_from_slice(&of_image[at..at + 2]);
        }
    }
    Ok(IconImage { start, bytes })
}

/// The images of an icon file, in their order.
pub fn images_of(file: &[u8]) -> Result<Vec<IconImage<'_>>, IconError> {
    let count = match (word_at(file, 0), word_at(file, 2), word_at(file, 4)) {
        (Some(0), Some(1), Some(count)) => usize::from(count),
        _ => return Err(IconError::NotIcon),
    };
    if count == 0 {
        return Err(IconError::NoImages);
    }
    let entries = file.get(HEADER..HEADER + ENTRY * count).ok_or(IconError::EntriesEnd)?;
    let images = entries.chunks_exact(ENTRY).enumerate().map(|(index, entry)| image_of(file, entry, index + 1));
    let images = images.collect::<Result<Vec<_>, _>>()?;
    // Images that share their bytes would make an executable that is far larger than both files.
    if images.iter().map(|it| it.bytes.len()).sum::<usize>() > file.len() {
        return Err(IconError::Shared);
    }
    Ok(images)
}

/// The identifiers in a group, without the second of two that are the same.
fn ids_of(group: &[u8]) -> Vec<u16> {
    let entries = group.get(HEADER..).unwrap_or_default().chunks_exact(GROUP_ENTRY);
    let mut met = BTreeSet::new();
    entries.filter_map(|it| word_at(it, GROUP_ENTRY - 2)).filter(|id| met.insert(*id)).collect()
}

/// The resource of a group in the place of which new icons go, in one language.
pub struct Group {
    pub name: ResourceKey,
    pub language: u16,
}

/// What an image has of icons: it is gathered once, and kept as groups are set.
pub struct Icons {
    /// The languages of each icon that has an identifier.
    languages: BTreeMap<u16, BTreeSet<u16>>,
    /// In how many groups an identifier stands.
    users: BTreeMap<u16, usize>,
    /// The identifiers that no icon has.
    free: BTreeSet<u16>,
}

impl Icons {
    /// It reads each group: the caller has to bound their bytes, which groups of a hostile image may share.
    pub fn of(editor: &ResourceEditor<'_>) -> Icons {
        let mut icons = Icons { languages: BTreeMap::new(), users: BTreeMap::new(), free: (1..=u16::MAX).collect() };
        for ((kind, name, language), content) in editor.resources() {
            match (kind.id(), name.id()) {
                (Some(ICON), Some(id)) => icons.put(id, *language),
                (Some(GROUP_ICON), _) => icons.count(&ids_of(&content.bytes)),
                _ => {}
            }
        }
        icons
    }

    fn put(&mut self, id: u16, language: u16) {
        self.languages.entry(id).or_default().insert(language);
        self.free.remove(&id);
    }

    fn count(&mut self, ids: &[u16]) {
        ids.iter().for_each(|id| *self.users.entry(*id).or_default() += 1);
    }

    /// Takes the identifiers of a group away, and returns those that are its own: no other group has them, and no icon of another
    /// language, which Windows might show in the place of a new one.
    fn own(&mut self, ids: Vec<u16>, language: u16) -> Vec<u16> {
        for id in &ids {
            if let Some(users) = self.users.get_mut(id) {
                *users -= 1;
            }
        }
        let is_alone = |id: &u16| self.languages.get(id).is_none_or(|it| it.iter().all(|it| *it == language));
        ids.into_iter().filter(|id| self.users.get(id).is_none_or(|it| *it == 0) && is_alone(id)).collect()
    }

    /// So many identifiers: a group's own, and then others that are free.
    fn ids(&self, own: &[u16], count: usize) -> Result<Vec<u16>, IconError> {
        let met: BTreeSet<_> = own.iter().collect();
        let free = self.free.iter().filter(|id| !met.contains(id));
        let ids: Vec<u16> = own.iter().chain(free).take(count).copied().collect();
        if ids.len() == count {
            Ok(ids)
        } else {
            Err(IconError::NoIdentifier)
        }
    }

    /// Puts icons into the place of a group's: they take its identifiers, and where there are more of them others that are free.
    /// Icons that are left over of it are removed, but for those of other groups or languages.
    pub fn set_group(
        &mut self,
        editor: &mut ResourceEditor<'_>,
        group: &Group,
        images: &[IconImage<'_>],
    ) -> Result<(), IconError> {
        let place = (GROUP_ICON.into(), group.name.clone(), group.language);
        let old = editor.get(&place).map(|it| ids_of(&it.bytes)).unwrap_or_default();
        let own = self.own(old, group.language);
        let ids = self.ids(&own, images.len())?;
        for (image, id) in images.iter().zip(&ids) {
            editor.set(ICON.into(), (*id).into(), group.language, image.bytes.to_vec());
            self.put(*id, group.language);
        }
        for id in own.iter().skip(images.len()) {
            editor.remove(&(ICON.into(), (*id).into(), group.language));
            self.languages.remove(id);
            self.free.insert(*id);
        }
        self.count(&ids);
        editor.set(GROUP_ICON.into(), group.name.clone(), group.language, group_of(images, &ids));
        Ok(())
    }
}

/// The content of a group of these images.
fn group_of(images: &[IconImage<'_>], ids: &[u16]) -> Vec<u8> {
    let mut content: Vec<u8> = [0, 1, images.len() as u16].into_iter().flat_map(u16::to_le_bytes).collect();
    for (image, id) in images.iter().zip(ids) {
        content.extend(image.start);
        content.extend((image.bytes.len() as u32).to_le_bytes());
        content.extend(id.to_le_bytes());
    }
    content
}

#[cfg(test)]
mod tests {
    use super::*;

    /// An icon file of a bitmap of 1 x 1 without planes and bits in its entry, and of a PNG of 256 x 256.
    fn two() -> Vec<u8> {
        let mut bitmap = vec![40, 0, 0, 0, 1, 0, 0, 0, 2, 0, 0, 0, 1, 0, 24, 0];
        bitmap.resize(48, 0);
        let mut file = vec![0, 0, 1, 0, 2, 0];
        file.extend([1, 1, 0, 0, 0, 0, 0, 0, 48, 0, 0, 0, 38, 0, 0, 0]);
        file.extend([0, 0, 0, 7, 1, 0, 8, 0, 12, 0, 0, 0, 86, 0, 0, 0]);
        file.extend(bitmap);
        file.extend(b"\x89PNG\r\n\x1a\n....");
        file
    }

    #[test]
    fn images_have_their_entries() {
        let file = two();
        let images = images_of(&file).unwrap();
        assert_eq!(images[0].start, [1, 1, 0, 0, 1, 0, 24, 0]);
        assert_eq!((images[1].start, images[1].bytes), ([0, 0, 0, 0, 1, 0, 8, 0], &file[86..]));
    }

    #[test]
    fn damaged_files_are_refused() {
        let changed = |at: usize, byte: u8| {
            let mut file = two();
            file[at] = byte;
            images_of(&file).map(|it| it.len())
        };
        assert_eq!(changed(0, 1), Err(IconError::NotIcon));
        assert_eq!(changed(2, 2), Err(IconError::NotIcon), "a cursor");
        assert_eq!(changed(4, 0), Err(IconError::NoImages));
        assert_eq!(changed(5, 1), Err(IconError::EntriesEnd));
        assert_eq!(changed(30, 13), Err(IconError::ImageEnd(2)));
        assert_eq!(changed(37, 255), Err(IconError::ImageEnd(2)));
        assert_eq!(changed(38, 41), Err(IconError::ImageKind(1)));
        assert_eq!(changed(14, 39), Err(IconError::ImageKind(1)), "shorter than its header");
        assert_eq!(changed(86, 0), Err(IconError::ImageKind(2)));
        assert_eq!(images_of(&two()[..5]), Err(IconError::NotIcon));
        assert_eq!(images_of(&[]), Err(IconError::NotIcon));
        // 100 images that are one.
        let mut file = vec![0, 0, 1, 0, 100, 0];
        (0..100).for_each(|_| file.extend([1, 1, 0, 0, 1, 0, 24, 0, 48, 0, 0, 0, 70, 6, 0, 0]));
        file.extend(&two()[38..86]);
        assert_eq!(images_of(&file), Err(IconError::Shared));
    }
}
