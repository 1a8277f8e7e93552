//! Every refusal is reached, by the call that it belongs to, and has then changed nothing.

use tg18::{Event, Key, Memories, Refusal, Unit, UNIT_BYTES};

use crate::made::{same_bytes, script, Random};

/// What comes of some calls, each of which is to leave unit and memories as they were.
fn refused(
    unit: &mut Unit,
    memories: &mut Memories,
    call: impl FnOnce(&mut Unit, &mut Memories) -> Refusal,
) -> Refusal {
    let (unit_before, before) = (unit.bytes(), memories.clone());
    let refusal = call(unit, memories);
    assert_eq!(unit.bytes(), unit_before);
    assert!(same_bytes(memories, &before));
    refusal
}

fn fresh() -> (Unit, Memories<'static>) {
    (Unit::fresh(), Memories::new())
}

#[test]
fn bad_times() {
    let (mut unit, mut memories) = fresh();
    unit.advance(&mut memories, 1.0).unwrap();
    for time in [-0.0, -1.0, 2_097_152.1, f64::INFINITY, f64::NAN, 0.5] {
        let refusal = refused(&mut unit, &mut memories, |unit, memories| unit.advance(memories, time).unwrap_err());
        assert_eq!(refusal, Refusal::BadTime);
    }
    for time in [-0.0, f64::NAN, f64::NEG_INFINITY] {
        let held = refused(&mut unit, &mut memories, |unit, _| unit.hold_until(Key::A, time).unwrap_err());
        let pressed = refused(&mut unit, &mut memories, |unit, _| unit.press(Key::A, time).unwrap_err());
        assert_eq!([held, pressed], [Refusal::BadTime; 2]);
    }
}

#[test]
fn bad_turbos() {
    let (mut unit, mut memories) = fresh();
    for factor in [0.0, 1025.0, f64::NAN, -1.0] {
        let refusal = refused(&mut unit, &mut memories, |unit, _| unit.turbo(factor).unwrap_err());
        assert_eq!(refusal, Refusal::BadTurbo);
    }
    assert_eq!(unit.turbo(1024.0), Ok(()));
}

#[test]
fn no_place_for_a_press() {
    let (mut unit, mut memories) = fresh();
    (0..64).for_each(|_| unit.press(Key::B, 5.0).unwrap());
    let refusal = refused(&mut unit, &mut memories, |unit, _| unit.press(Key::B, 5.0).unwrap_err());
    assert_eq!(refusal, Refusal::KeysFull);
    unit.advance(&mut memories, 6.0).unwrap();
    assert_eq!(unit.press(Key::B, 7.0), Ok(()));
}

#[test]
fn no_place_for_a_register() {
    let (mut unit, mut memories) = fresh();
    (0..256).for_each(|n| unit.write(&mut memories, 0xC010_0000 + 4 * n, 4, 1).unwrap());
    let last = 0xC010_0000 + 4 * 256;
    let refusal = refused(&mut unit, &mut memories, |unit, memories| unit.write(memories, last, 4, 1).unwrap_err());
    assert_eq!(refusal, Refusal::RegistersFull);
    assert_eq!(unit.write(&mut memories, last, 4, 0), Ok(()));
}

#[test]
fn no_place_for_a_sound() {
    let (mut unit, mut memories) = fresh();
    let control = 0xC002_0080;
    (0..256).for_each(|n| unit.write(&mut memories, control, 4, [0x2000, 0][n % 2]).unwrap());
    let refusal =
        refused(&mut unit, &mut memories, |unit, memories| unit.write(memories, control, 4, 0x2000).unwrap_err());
    assert_eq!(refusal, Refusal::SoundFull);
    let mut events = [Event::default(); 300];
    assert_eq!(unit.take_events(&mut events), 256);
    assert_eq!(unit.take_events(&mut events), 0);
    assert_eq!(events[256], Event::default());
    assert!(events[0].frequency > 0.0 && events[1].frequency == 0.0);
}

type KeyCall = fn(&mut Unit, u32) -> Result<(), Refusal>;

#[test]
fn strays_keys_and_sizes() {
    let (mut unit, mut memories) = fresh();
    let stray = |unit: &mut Unit, memories: &mut Memories| unit.write(memories, 0x1000_0000, 4, 1).unwrap_err();
    assert_eq!(refused(&mut unit, &mut memories, stray), Refusal::StrayWrite);
    assert_eq!(unit.read(&memories, 0x1000_0000, 4), Ok(0));
    for key in [3u32, 4, u32::MAX] {
        let calls: [KeyCall; 3] = [
            |unit, key| unit.press(key, 1.0),
            |unit, key| unit.live_key(key, true),
            |unit, key| unit.hold_until(key, 1.0),
        ];
        for call in calls {
            let refusal = refused(&mut unit, &mut memories, |unit, _| call(unit, key).unwrap_err());
            assert_eq!(refusal, Refusal::BadKey);
        }
    }
    for size in [0, 3, 5, 8, u32::MAX] {
        let read = |unit: &mut Unit, memories: &mut Memories| unit.read(memories, 0x2000_0000, size).unwrap_err();
        let write =
            |unit: &mut Unit, memories: &mut Memories| unit.write(memories, 0x2000_0000, size, 1).unwrap_err();
        assert_eq!(refused(&mut unit, &mut memories, read), Refusal::BadSize);
        assert_eq!(refused(&mut unit, &mut memories, write), Refusal::BadSize);
    }
}

fn expected(done: Result<(), Refusal>, refusal: Refusal) -> Result<(), Refusal> {
    if done == Err(refusal) {
        Ok(())
    } else {
        done
    }
}

/// Every call that is lent memories.
fn with_memories(unit: &mut Unit, memories: &mut Memories) -> [Result<(), Refusal>; 13] {
    let mut bytes = vec![0xA5; tg18::SCREEN_BYTES];
    let (empty, mut out) = (script(&[], &[]), [0xA5; 4]);
    let done = [
        unit.wipe(memories),
        unit.read(memories, 0x2000_0000, 4).map(drop),
        unit.write(memories, 0x2000_0000, 4, 1),
        unit.advance(memories, 1.0),
        unit.next_event(memories).map(drop),
        memories.screen(&mut bytes),
        unit.peek8(memories, 0x2000_0000).map(drop),
        unit.peek32(memories, 0x2000_0000).map(drop),
        unit.read_block(memories, 0x2000_0000, &mut bytes).map(drop),
        unit.poke(memories, 0x2000_0000, b"abc"),
        unit.continue_script(memories, &empty, &mut out),
        // No room and no session, where that is not refused for the memories.
        expected(unit.save(memories, &mut out).map(drop), Refusal::SaveTooShort),
        expected(unit.resume(memories, &empty), Refusal::BadSave),
    ];
    if done.contains(&Err(Refusal::BadMemory)) {
        assert!(bytes.iter().chain(&out).all(|&byte| byte == 0xA5));
    }
    done
}

#[test]
fn memories_of_wrong_lengths() {
    let right = [tg18::RAM_BYTES, tg18::SRAM_BYTES, tg18::GPIO_BYTES, tg18::FRAMEBUFFER_BYTES];
    for wrong in 0..4 {
        for length in [0, right[wrong] - 1, right[wrong] + 1] {
            let mut lengths = right;
            lengths[wrong] = length;
            let [mut ram, mut sram, mut gpio, mut framebuffer] = lengths.map(|length| vec![0x5A; length]);
            let mut memories = Memories::lent(&mut ram, &mut sram, &mut gpio, &mut framebuffer);
            let (mut unit, before) = (Unit::fresh(), memories.clone());
            assert_eq!(with_memories(&mut unit, &mut memories), [Err(Refusal::BadMemory); 13]);
            let (empty, mut out) = (script(&[], &[]), [0; 4]);
            assert_eq!(tg18::run_script(&mut memories, &empty, &mut out), Err(Refusal::BadMemory));
            assert_eq!(unit.bytes(), Unit::fresh().bytes());
            assert!(same_bytes(&memories, &before));
        }
    }
}

#[test]
fn lent_memories_are_the_hosts() {
    let (mut ram, mut sram) = (vec![0; tg18::RAM_BYTES], vec![0; tg18::SRAM_BYTES]);
    let (mut gpio, mut framebuffer) = (vec![0; tg18::GPIO_BYTES], vec![0; tg18::FRAMEBUFFER_BYTES]);
    let mut memories = Memories::lent(&mut ram, &mut sram, &mut gpio, &mut framebuffer);
    assert_eq!(with_memories(&mut Unit::fresh(), &mut memories), [Ok(()); 13]);
    drop(memories);
    assert_eq!(ram[..4], *b"abc\0");
}

#[test]
fn scripts_that_are_none() {
    let (mut unit, mut memories) = fresh();
    let good = script(&[], &[(12, 0, 0, 0)]);
    let mut bad_kind = good.clone();
    bad_kind[8] = 13;
    for (bytes, room, refusal) in [
        (&good[1..], 29, Refusal::BadScript),
        (&bad_kind[..], 29, Refusal::BadScript),
        (&[][..], 29, Refusal::BadScript),
        (&good[..], 28, Refusal::OutTooShort),
    ] {
        let mut out = vec![0xA5; room];
        let continued = refused(&mut unit, &mut memories, |unit, memories| {
            unit.continue_script(memories, bytes, &mut out).unwrap_err()
        });
        let run =
            refused(&mut unit, &mut memories, |_, memories| tg18::run_script(memories, bytes, &mut out).unwrap_err());
        assert_eq!([continued, run], [refusal; 2]);
        assert!(out.iter().all(|&byte| byte == 0xA5));
    }
    for bytes in [0, tg18::SCREEN_BYTES - 1, tg18::SCREEN_BYTES + 1] {
        let mut rgb = vec![0xA5; bytes];
        assert_eq!(memories.screen(&mut rgb), Err(Refusal::BadMemory));
        assert!(rgb.iter().all(|&byte| byte == 0xA5));
    }
}

#[test]
fn no_sound_event_waits() {
    let mut out = [0; 29];
    tg18::run_script(&mut Memories::new(), &script(&[], &[(9, 0, 0, 0)]), &mut out).unwrap();
    assert_eq!(Refusal::from_number(out[4].into()), Some(Refusal::NoEvent));
}

/// No unit that was fresh once has such a time; one of any bytes may.
#[test]
fn no_next_time() {
    let (mut random, memories) = (Random::new(1), Memories::new());
    let found = (0..1000).any(|_| {
        let mut number = || [f64::INFINITY, 1.0][random.below(2) as usize].to_ne_bytes();
        let bytes: Vec<u8> = (0..UNIT_BYTES / 8).flat_map(|_| number()).collect();
        Unit::from_bytes(&bytes).unwrap().next_event(&memories) == Err(Refusal::NoNextTime)
    });
    assert!(found);
}
