//! Walks the stacks of a minidump, from the dump alone and the files of images: `dump_walks DUMP MOST [FILE ..]`. Each thread has at
//! most MOST frames.
//!
//! A frame is a line: the ID of its thread, way, whether it has called, the instruction pointer and the stack pointer. So is the end
//! of each walk.
use pe_c::{Dump, DumpImages, Error, Image, Mode, Stacks};
use std::collections::HashMap;

fn main() -> Result<(), Box<dyn std::error::Error>> {
    let mut words = std::env::args().skip(1);
    let (Some(path), Some(Ok(most))) = (words.next(), words.next().map(|it| it.parse())) else {
        eprintln!("usage: dump_walks DUMP MOST [FILE ..]");
        std::process::exit(2);
    };
    let bytes = std::fs::read(path)?;
    let files: Vec<Vec<u8>> = words.map(std::fs::read).collect::<Result<_, _>>()?;
    // An image is looked up by what a symbol server files it under.
    let key = |file: &[u8]| {
        Image::parse(file, Mode::Permissive).map(|it| (it.info().time_date_stamp, it.info().size_of_image))
    };
    let by_key =
        files.iter().map(|file| Ok((key(file)?, file.as_slice()))).collect::<Result<HashMap<_, _>, Error>>()?;
    walk(&bytes, most, &by_key)?;
    Ok(())
}

fn walk(bytes: &[u8], most: usize, files: &HashMap<(u32, u32), &[u8]>) -> Result<(), Error> {
    let dump = Dump::parse(bytes)?;
    let images = DumpImages::new(&dump, |module| files.get(&(module.time_date_stamp, module.size_of_image)).copied())?;
    let mut stacks = Stacks::new(&images);
    for thread in dump.threads()?.into_iter().flatten() {
        let id = thread.thread_id;
        match stacks.walk(&dump, &thread, most) {
            Ok(stack) => {
                for frame in &stack.frames {
                    let (ip, sp) = (frame.registers.ip(), frame.registers.sp());
                    println!("frame {id} {:?} {} {ip:x} {sp:x}", frame.way, frame.has_called);
                }
                println!("end {id} {:?}", stack.end);
            }
            Err(error) => println!("end {id} {error}"),
        }
    }
    Ok(())
}
