//! What readings show, and what a refused call leaves.

use sqimrutta::{raw, Context, Dot, Image, Reading, Refusal, BLOCK};

const TABLE_OF_TWO: [u8; 8] = [0b11, 0, 0, 0, 0, 0, 0, 0];

fn values(reading: &Reading) -> Vec<Vec<u8>> {
    reading.versions().iter().map(|version| version.value().to_vec()).collect()
}

#[test]
fn of_eight_versions() -> Result<(), Refusal> {
    let mut image = Image::start(1, &TABLE_OF_TWO)?;
    let written: Vec<Vec<u8>> = (1..=8).map(|n| vec![n; 3 * usize::from(n)]).collect();
    for value in &written {
        image.write(0, 7, value, &Context::EMPTY)?;
    }
    let reading = image.read(0, 7)?;
    assert_eq!(values(&reading), written);
    for (version, counter) in reading.versions().iter().zip(1..) {
        assert_eq!(version.dot(), Dot { controller: 1, counter });
        assert!(reading.context().covers(version.dot()));
    }
    assert_eq!(reading.context(), &Context::new([8, 0, 0, 0, 0, 0, 0, 0]));
    assert_eq!((reading.controller(), reading.job(), reading.point()), (1, 0, 7));

    // The ninth is one too many, and leaves the image as it was.
    let before = image.clone();
    assert_eq!(image.write(0, 7, b"9", &Context::EMPTY), Err(Refusal::TooManyVersions));
    assert_eq!(image, before);
    // One that has seen the eight replaces them.
    image.write(0, 7, b"9", reading.context())?;
    assert_eq!(values(&image.read(0, 7)?), [b"9"]);
    Ok(())
}

#[test]
fn of_versions_by_two_controllers() -> Result<(), Refusal> {
    let mut one = Image::start(1, &TABLE_OF_TWO)?;
    let mut two = Image::start(2, &TABLE_OF_TWO)?;
    one.take_in(&two.write(0, 7, b"by two", &Context::EMPTY)?)?;
    one.write(0, 7, b"by one", &Context::EMPTY)?;
    let reading = one.read(0, 7)?;
    assert_eq!(values(&reading), [b"by one", b"by two"]);
    assert_eq!(reading.context().counters(), &[1, 1, 0, 0, 0, 0, 0, 0]);
    Ok(())
}

#[test]
fn of_an_empty_value() -> Result<(), Refusal> {
    let mut image = Image::start(1, &TABLE_OF_TWO)?;
    image.write(0, 7, b"", &Context::EMPTY)?;
    let reading = image.read(0, 7)?;
    assert_eq!(values(&reading), [b""]);
    Ok(())
}

#[test]
fn of_a_value_of_24_bytes() -> Result<(), Refusal> {
    let mut image = Image::start(1, &TABLE_OF_TWO)?;
    let longest: Vec<u8> = (0..24).collect();
    image.write(0, 7, &longest, &Context::EMPTY)?;
    assert_eq!(values(&image.read(0, 7)?), [longest]);
    Ok(())
}

#[test]
fn of_a_deleted_point() -> Result<(), Refusal> {
    let mut image = Image::start(1, &TABLE_OF_TWO)?;
    image.write(0, 7, b"BASE", &Context::EMPTY)?;
    let seen = image.read(0, 7)?;
    image.delete(0, 7, seen.context())?;
    let reading = image.read(0, 7)?;
    assert!(reading.versions().is_empty());
    assert_eq!(reading.context().counter(1), 2);
    Ok(())
}

/// The deletion has a record here, since the write before it is missing: its version is stored, but not shown.
#[test]
fn of_a_point_whose_deletion_came_first() -> Result<(), Refusal> {
    let mut one = Image::start(1, &TABLE_OF_TWO)?;
    let mut two = Image::start(2, &TABLE_OF_TWO)?;
    let set = one.write(0, 7, b"BASE", &Context::EMPTY)?;
    let deleted = one.delete(0, 7, one.read(0, 7)?.context())?;
    for message in [deleted, set] {
        two.take_in(&message)?;
        assert!(two.read(0, 7)?.versions().is_empty());
    }
    Ok(())
}

#[test]
fn by_the_types_and_by_raw_are_the_same() -> Result<(), Refusal> {
    let mut image = Image::start(2, &TABLE_OF_TWO)?;
    image.write(0, 65_535, b"one", &Context::EMPTY)?;
    image.write(0, 65_535, b"two", &Context::EMPTY)?;
    let mut block = [0; BLOCK];
    raw::read(image.as_bytes(), 0, 65_535, &mut block)?;
    assert_eq!(Reading::from_block(&block), Some(image.read(0, 65_535)?));
    Ok(())
}

#[test]
fn numbers_out_of_range_are_refused() -> Result<(), Refusal> {
    let mut image = Image::start(1, &TABLE_OF_TWO)?;
    let before = image.clone();
    for (job, point) in [(0, 0), (1, 7), (8, 7), (255, 7)] {
        assert_eq!(image.read(job, point), Err(Refusal::OutOfRange));
        assert_eq!(image.write(job, point, b"", &Context::EMPTY), Err(Refusal::OutOfRange));
        assert_eq!(image.delete(job, point, &Context::EMPTY), Err(Refusal::OutOfRange));
    }
    for number in [0, 9, 255] {
        assert_eq!(Image::start(number, &TABLE_OF_TWO), Err(Refusal::OutOfRange));
        assert_eq!(image.ask(number), Err(Refusal::OutOfRange));
    }
    assert_eq!(image, before);
    Ok(())
}
