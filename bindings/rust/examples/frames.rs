use pe_c::{End, Frame, Frames, Image, MachineRegisters, MemoryList, MemoryPiece, Module, Stack};

/// The frames of a thread, from the top frame outwards, at most 1,000, and why there are no more: on x64 by `Registers`, on ARM64
/// by `Arm64Registers`. The images are those of the thread's process, each with the address where it is loaded.
pub fn backtrace<R: MachineRegisters>(
    images: &[(u64, Image<'_>)],
    registers: R,
    stack: Stack<'_>,
) -> Result<(Vec<Frame<R>>, Option<End>), pe_c::Error> {
    let modules = images.iter().map(|(base, image)| Module::new(image, *base)).collect::<Result<Vec<_>, _>>()?;
    let pieces = [MemoryPiece { start: stack.start, offset: 0, length: stack.bytes.len() as u64 }];
    let mut frames = Frames::new(registers, 1000, &modules, MemoryList::new(stack.bytes, &pieces)?);
    Ok((frames.by_ref().collect(), frames.end()))
}

fn main() -> Result<(), Box<dyn std::error::Error>> {
    // The frames of a thread in one image. Its stack starts at address 20000 with the words that are named.
    let arguments: Vec<String> = std::env::args().skip(1).collect();
    let numbers = arguments.iter().skip(1).map(|it| u64::from_str_radix(it, 16)).collect::<Result<Vec<_>, _>>();
    let (Some(file), Some([base, rip, words @ ..])) = (arguments.first(), numbers.as_deref().ok()) else {
        eprintln!("usage: frames FILE BASE RIP WORD.., numbers in hexadecimal");
        std::process::exit(2);
    };
    let data = std::fs::read(file)?;
    let image = Image::parse(&data, pe_c::Mode::Permissive)?;
    let bytes: Vec<u8> = words.iter().flat_map(|word| word.to_le_bytes()).collect();
    let stack = Stack { start: 0x2_0000, bytes: &bytes };
    let mut registers = pe_c::Registers { rip: *rip, ..Default::default() };
    registers.set_rsp(stack.start);
    let (frames, end) = backtrace(&[(*base, image)], registers, stack)?;
    for frame in frames {
        println!("{:x}", frame.registers.rip);
    }
    println!("{end:?}");
    Ok(())
}
