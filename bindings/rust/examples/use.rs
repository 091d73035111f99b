use quaythistle::{height, place, Block, Command, Filing, Image, Refusal};

/// A block's sample time, in seconds, and its readings.
fn block(time: u32, readings: &[u8]) -> Block<'_> {
    Block { time, readings }
}

fn main() -> Result<(), Refusal> {
    let left = block(1_700_028_000, b"morning");
    let right = block(1_700_071_200, b"evening");
    let mut image = Image::new();
    for (position, block) in [(0, left), (1, right)] {
        let tag = block.tag()?;
        image.apply(&Command::Insert {
            position,
            height: 0,
            tag,
        })?;
    }
    let held = image.metadata(); // all that the gateway keeps

    // Noon comes late. The store finds its place and proves what stands there and right after.
    let block = block(1_700_049_600, b"noon");
    let position = place(&[left.time, right.time], block.time);
    let (first, second) = (image.prove(position)?, image.prove(position + 1)?);

    // The gateway files it between the two, and the store makes the same Insert.
    let filing = Filing {
        position,
        height: height(6),
        block,
        left,
        right,
    };
    let accepted = held.file(&filing, first.as_bytes(), second.as_bytes())?;
    println!("refusal 0, blocks {}", image.apply(&filing.insert()?)?);
    assert_eq!(accepted.metadata, image.metadata());
    Ok(())
}
