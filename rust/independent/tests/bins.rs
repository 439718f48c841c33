//! Corner cases of the bin decoder.

use independent::*;

const PAYLOAD: [u8; 4] = [0x9A, 0x3C, 0x5D, 0xE7];
const GOOD: State = State {
    rs: 1,
    rt: 100,
    vs: 2,
    vt: 77,
    place: 12,
};

fn state(rs: u64, rt: u64, vs: u64, vt: u64, place: u64) -> State {
    State { rs, rt, vs, vt, place }
}

fn context(mps: u64, lg: u64, cycno: u64) -> Context {
    Context { mps, lg, cycno }
}

/// PAYLOAD OUT with so many bits missing.
fn out(missing: u32) -> Unread {
    let missing = Some(missing);
    Unread { number: 14, missing }
}

/// A refusal for which no bit is missing.
fn refused(number: u32) -> Unread {
    Unread { number, missing: None }
}

#[test]
fn starting() {
    assert_eq!(start(&[0xFF, 0x80], 9), Ok(state(0, 255, 0, 255, 9)));
    assert_eq!(start(&[0xFF, 0x80], 8), Err(out(1)));
    assert_eq!(start(&[0, 0x40], 18), Err(out(1)));
    assert_eq!(start(&[0, 0x40, 0], u64::MAX), Ok(state(0, 255, 9, 0, 18)));
    assert_eq!(start(&vec![0; 65_537], 0), Err(refused(13)));
    assert_eq!(start(&vec![0; 65_536], u64::MAX), Err(out(1)));
    assert_eq!(start(&[], u64::MAX), Err(out(9)));
}

#[test]
fn bad_states() {
    let spoilt = [
        State { rs: 3, ..GOOD },
        State { vs: 524_289, ..GOOD },
        State {
            rs: u64::MAX,
            vs: u64::MAX,
            ..GOOD
        },
        State { rt: 256, ..GOOD },
        State { vt: 256, ..GOOD },
        State { place: 33, ..GOOD },
        State { place: u64::MAX, ..GOOD },
    ];
    for s in spoilt {
        assert_eq!(decode(&PAYLOAD, u64::MAX, s, fresh()), Err(refused(15)));
        assert_eq!(decode_pair(&PAYLOAD, u64::MAX, s, fresh(), fresh()), Err(refused(15)));
        assert_eq!(bypass(&PAYLOAD, u64::MAX, s), Err(refused(15)));
        assert_eq!(stuffing(&PAYLOAD, u64::MAX, s), Err(refused(15)));
        assert_eq!(stuffing(&vec![0; 65_537], u64::MAX, s), Err(refused(13)));
    }
    // The place is held against the bit count where that is less than the bytes hold.
    assert_eq!(bypass(&PAYLOAD, 11, GOOD), Err(refused(15)));
    assert!(bypass(&PAYLOAD, 12, GOOD).is_ok());
}

#[test]
fn bad_contexts() {
    let spoilt = [
        Context { mps: 2, ..fresh() },
        Context { lg: 3, ..fresh() },
        Context { lg: 1024, ..fresh() },
        Context { cycno: 4, ..fresh() },
        Context {
            mps: u64::MAX,
            lg: u64::MAX,
            cycno: u64::MAX,
        },
    ];
    for c in spoilt {
        assert_eq!(decode(&PAYLOAD, 32, GOOD, c), Err(refused(15)));
        assert_eq!(decode_pair(&PAYLOAD, 32, GOOD, c, fresh()), Err(refused(15)));
        assert_eq!(decode_pair(&PAYLOAD, 32, GOOD, fresh(), c), Err(refused(15)));
    }
}

#[test]
fn pairs() {
    // Far from the end of the range the bin is the predicted one.
    let s = state(0, 255, 100, 0, 9);
    let bin = |a_mps, a_lg, b_mps, b_lg| {
        let a = context(a_mps, a_lg, 3);
        let b = context(b_mps, b_lg, 3);
        let (bin, after, _, _) = decode_pair(&PAYLOAD, 32, s, a, b).unwrap();
        (bin, 255 + 256 * after.rs - after.rt)
    };
    assert_eq!(bin(1, 101, 1, 20), (1, 15)); // lg 60
    assert_eq!(bin(0, 4, 0, 4), (0, 1));
    assert_eq!(bin(1, 100, 0, 200), (1, 243)); // lg 973
    assert_eq!(bin(1, 200, 0, 100), (0, 243));
    assert_eq!(bin(1, 300, 0, 300), (0, 255)); // the second on a tie
    assert_eq!(bin(0, 300, 1, 300), (1, 255));
    assert_eq!(bin(0, 4, 1, 1023), (0, 128)); // lg 514
}

#[test]
fn pair_updates() {
    let s = state(0, 255, 100, 0, 9);
    let a = context(0, 100, 2);
    let b = context(1, 1000, 3);
    let (bin, _, a, b) = decode_pair(&PAYLOAD, 32, s, a, b).unwrap();
    assert_eq!(bin, 0);
    assert_eq!(a, context(0, 100 - 6 - 1, 2));
    assert_eq!(b, context(0, 2047 - 1046, 3));
}

#[test]
fn updates_by_the_cycno_before() {
    let s = state(0, 255, 100, 0, 9);
    let likely = |cycno| decode(&PAYLOAD, 32, s, context(1, 1000, cycno)).unwrap().2;
    assert_eq!(likely(0), context(1, 1000 - 125 - 31, 1));
    assert_eq!(likely(1), context(1, 1000 - 125 - 31, 1));
    assert_eq!(likely(2), context(1, 1000 - 62 - 15, 2));
    assert_eq!(likely(3), context(1, 1000 - 31 - 7, 3));
    let low = state(0, 255, 0, 255, 9);
    let unlikely = |cycno| decode(&PAYLOAD, 32, low, context(1, 500, cycno)).unwrap();
    assert_eq!(unlikely(0).0, 0);
    assert_eq!(unlikely(0).2, context(1, 697, 1));
    assert_eq!(unlikely(1).2, context(1, 697, 2));
    assert_eq!(unlikely(2).2, context(1, 595, 3));
    assert_eq!(unlikely(3).2, context(1, 546, 3));
}

#[test]
fn lg_stays_in_its_range() {
    let s = state(0, 255, 100, 0, 9);
    let low = state(0, 255, 0, 255, 9);
    for lg in 4..=1023 {
        for cycno in 0..4 {
            for state in [s, low] {
                let after = decode(&PAYLOAD, 32, state, context(0, lg, cycno)).unwrap().2;
                assert!((4..=1023).contains(&after.lg) && after.mps <= 1 && after.cycno <= 3);
            }
        }
    }
}

#[test]
fn bypass_and_stuffing() {
    let s = start(&PAYLOAD, 32).unwrap();
    let (bin, after, _) = decode(&PAYLOAD, 32, s, fresh()).unwrap();
    assert_eq!(bypass(&PAYLOAD, 32, s), Ok((bin, after)));
    let (bin, after, _) = decode(&PAYLOAD, 32, s, Context { lg: 4, ..fresh() }).unwrap();
    assert_eq!(stuffing(&PAYLOAD, 32, s), Ok((bin, after)));
    assert_eq!((bin, after), (0, State { rt: 254, ..s }));
}

/// Request E9's rule, of every entry and the next.
#[test]
fn tables() {
    for w in 3..=5 {
        let table: Vec<u32> = (0..1024).map_while(|lg| table_entry(w, lg)).collect();
        assert_eq!(table.len(), 1024);
        assert!(table
            .iter()
            .zip(0..)
            .all(|(&entry, lg)| entry <= lg && (lg < 4 || entry >= 4)));
        assert!(table.windows(2).all(|pair| pair[0].abs_diff(pair[1]) <= 1));
    }
    assert_eq!([3, 4, 5].map(|w| table_entry(w, 1023)), [Some(865), Some(945), Some(985)]);
    assert_eq!([3, 4, 5].map(|w| table_entry(w, 32)), [Some(27), Some(30), Some(31)]);
    assert_eq!([(2, 8), (6, 8), (3, 1024)].map(|(w, lg)| table_entry(w, lg)), [None; 3]);
}
