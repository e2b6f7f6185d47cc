//! Every buffer of every call at wrong lengths: the answer is refusal 1, and no byte of any buffer changes.

use sqimrutta::{raw, Ask, Context, Image, Outgoing, Refusal, Reply, BLOCK, CONTEXT, IMAGE, REPLY, TABLE};

const TABLE_OF_TWO: [u8; TABLE] = [0b11, 0, 0, 0, 0, 0, 0, 0];
/// What the buffers to write to hold before a call, so that a change is seen.
const MARK: u8 = 0xa5;

/// Two controllers, and the messages between them, all right.
struct Crew {
    one: Vec<u8>,
    two: Vec<u8>,
    message: Vec<u8>,
    ask: Vec<u8>,
    reply: Vec<u8>,
}

fn crew() -> Result<Crew, Refusal> {
    let (mut one, two) = (Image::start(1, &TABLE_OF_TWO)?, Image::start(2, &TABLE_OF_TWO)?);
    let message = one.write(0, 7, b"BASE", &Context::EMPTY)?;
    let ask = two.ask(1)?;
    let reply = one.reply(&ask)?;
    Ok(Crew {
        one: one.as_bytes().to_vec(),
        two: two.as_bytes().to_vec(),
        message: message.as_bytes().to_vec(),
        ask: ask.as_bytes().to_vec(),
        reply: reply.as_bytes().to_vec(),
    })
}

/// These bytes at another length: cut, or lengthened by marks.
fn resized(bytes: &[u8], length: usize) -> Vec<u8> {
    let mut bytes = bytes.to_vec();
    bytes.resize(length, MARK);
    bytes
}

/// None, one too few, one too many, and twice as many.
fn wrong(right: usize) -> [usize; 4] {
    [0, right - 1, right + 1, 2 * right]
}

/// Makes the call on copies of the buffers that it may write to: it must be refused with 1, and the copies be as before.
fn refused_for_length<T>(
    what: &str,
    image: &[u8],
    out: &[u8],
    call: impl FnOnce(&mut [u8], &mut [u8]) -> Result<T, Refusal>,
) {
    let (mut image_after, mut out_after) = (image.to_vec(), out.to_vec());
    let answer = call(&mut image_after, &mut out_after).err();
    let lengths = (image.len(), out.len());
    assert_eq!(answer, Some(Refusal::WrongLength), "{what}: image and out {lengths:?}");
    assert!(image_after == image, "{what}: the image has changed");
    assert!(out_after == out, "{what}: the buffer to write to has changed");
}

#[test]
fn an_image_of_a_wrong_length() -> Result<(), Refusal> {
    let Crew { one, two, message, ask, reply } = crew()?;
    let (block, room) = ([MARK; BLOCK], [MARK; REPLY]);
    for length in wrong(IMAGE) {
        let (one, two) = (&resized(&one, length), &resized(&two, length));
        refused_for_length("start", one, &[], |image, _| raw::start(image, 1, &TABLE_OF_TWO));
        refused_for_length("read", one, &block, |image, out| raw::read(image, 0, 7, out));
        refused_for_length("write", one, &block, |image, out| raw::write(image, 0, 7, b"", &[0; 8], out));
        refused_for_length("delete", one, &block, |image, out| raw::delete(image, 0, 7, &[0; 8], out));
        refused_for_length("take_in", two, &[], |image, _| raw::take_in(image, &message));
        refused_for_length("ask", two, &block, |image, out| raw::ask(image, 1, out));
        refused_for_length("reply", one, &room, |image, out| raw::reply(image, &ask, out));
        refused_for_length("repair", two, &[], |image, _| raw::repair(image, &reply));
        refused_for_length("strip_pass", one, &[], |image, _| raw::strip_pass(image));
        assert!(!raw::good(one));
        assert_eq!(Image::from_bytes(one), Err(Refusal::WrongLength));
    }
    Ok(())
}

#[test]
fn a_buffer_to_write_to_of_a_wrong_length() -> Result<(), Refusal> {
    let Crew { one, two, ask, .. } = crew()?;
    for length in wrong(BLOCK) {
        let out = &vec![MARK; length];
        refused_for_length("read", &one, out, |image, out| raw::read(image, 0, 7, out));
        refused_for_length("write", &one, out, |image, out| raw::write(image, 0, 7, b"", &[0; 8], out));
        refused_for_length("delete", &one, out, |image, out| raw::delete(image, 0, 7, &[0; 8], out));
        refused_for_length("ask", &two, out, |image, out| raw::ask(image, 1, out));
    }
    for length in [0, BLOCK, 2 * BLOCK, REPLY - 1] {
        refused_for_length("reply", &one, &vec![MARK; length], |image, out| raw::reply(image, &ask, out));
    }
    Ok(())
}

#[test]
fn more_room_for_a_reply_is_right_and_keeps_its_bytes() -> Result<(), Refusal> {
    let Crew { one, ask, reply, .. } = crew()?;
    let mut room = vec![MARK; REPLY + 1];
    assert_eq!(raw::reply(&one, &ask, &mut room), Ok(1));
    assert!(room[..2 * BLOCK] == reply);
    assert!(room[2 * BLOCK..].iter().all(|byte| *byte == MARK));
    Ok(())
}

#[test]
fn an_input_of_a_wrong_length() -> Result<(), Refusal> {
    let Crew { one, two, message, ask, reply } = crew()?;
    let (block, room) = ([MARK; BLOCK], [MARK; REPLY]);
    for length in wrong(TABLE) {
        let table = resized(&TABLE_OF_TWO, length);
        refused_for_length("start", &one, &[], |image, _| raw::start(image, 1, &table));
    }
    for length in wrong(CONTEXT) {
        let context = vec![0; length];
        refused_for_length("write", &one, &block, |image, out| raw::write(image, 0, 7, b"", &context, out));
        refused_for_length("delete", &one, &block, |image, out| raw::delete(image, 0, 7, &context, out));
    }
    for length in wrong(BLOCK) {
        let (message, ask) = (resized(&message, length), resized(&ask, length));
        refused_for_length("take_in", &two, &[], |image, _| raw::take_in(image, &message));
        refused_for_length("reply", &one, &room, |image, out| raw::reply(image, &ask, out));
    }
    for length in wrong_for_a_reply() {
        let reply = resized(&reply, length);
        refused_for_length("repair", &two, &[], |image, _| raw::repair(image, &reply));
    }
    Ok(())
}

/// Nothing, parts of blocks, and more than 121 blocks.
fn wrong_for_a_reply() -> [usize; 7] {
    [0, 1, BLOCK - 1, BLOCK + 1, REPLY - 1, REPLY + 1, REPLY + BLOCK]
}

#[test]
fn messages_of_wrong_lengths_by_the_types() -> Result<(), Refusal> {
    let Crew { one, two, message, ask, reply } = crew()?;
    let mut two = Image::from_bytes(&two)?;
    let (one, before) = (Image::from_bytes(&one)?, two.clone());
    for length in wrong(BLOCK) {
        let message = Outgoing::from_bytes(&resized(&message, length));
        assert_eq!(message.as_bytes().len(), length);
        assert_eq!(two.take_in(&message), Err(Refusal::WrongLength));
        assert_eq!(one.reply(&Ask::from_bytes(&resized(&ask, length))), Err(Refusal::WrongLength));
    }
    for length in wrong_for_a_reply() {
        assert_eq!(two.repair(&Reply::from_bytes(&resized(&reply, length))), Err(Refusal::WrongLength));
    }
    assert_eq!(two, before);
    assert_eq!(two.take_in(&Outgoing::from_bytes(&message)), Ok(()));
    assert_eq!(two.repair(&Reply::from_bytes(&reply)), Ok(()));
    Ok(())
}

#[test]
fn a_value_has_a_refusal_of_its_own() -> Result<(), Refusal> {
    let mut image = Image::start(1, &TABLE_OF_TWO)?;
    let before = image.clone();
    for length in [25, 26, 1000] {
        assert_eq!(image.write(0, 7, &vec![1; length], &Context::EMPTY), Err(Refusal::ValueTooLong));
    }
    assert_eq!(image, before);
    assert!(image.write(0, 7, &[1; 24], &Context::EMPTY).is_ok());
    Ok(())
}
