//! Document 02, E13, "How many bits were missing?": what PAYLOAD OUT carries of Exp-Golomb numbers, of starts and of bins.

use independent::generate::states_that_want;
use independent::*;

/// PAYLOAD OUT with so many bits missing.
fn out(missing: u32) -> Unread {
    let missing = Some(missing);
    Unread { number: 14, missing }
}

/// A refusal for which no bit is missing.
fn refused(number: u32) -> Unread {
    Unread { number, missing: None }
}

/// Bits, filled up to whole bytes with ones.
fn packed(bits: &str) -> Vec<u8> {
    let mut bytes = vec![0xFF; (bits.len() + 7) / 8];
    for (i, _) in bits.char_indices().filter(|(_, bit)| *bit == '0') {
        bytes[i / 8] ^= 0x80 >> (i % 8);
    }
    bytes
}

/// Both numbers are refused alike at this place of this payload.
fn both_refused(bytes: &[u8], count: u64, place: u64, unread: Unread) {
    assert_eq!(golomb(bytes, count, place), Err(unread), "{bytes:02X?} {count} {place}");
    assert_eq!(signed_golomb(bytes, count, place), Err(unread));
}

/// So many zeros, a 1, and as many bits for b.
fn number(zeros: usize) -> String {
    let b = "1001011001101001".repeat(2);
    format!("{}1{}", "0".repeat(zeros), &b[..zeros])
}

/// How many bits are missing of a number where only some of its bits are there.
fn missing(zeros: usize, there: usize) -> u32 {
    match there.checked_sub(zeros + 1) {
        Some(of_b) => (zeros - of_b) as u32,
        None => 1,
    }
}

/// Each number cut at each of its bits by the bit count, behind other bits or none; the bytes hold all of it.
#[test]
fn numbers_cut_by_the_bit_count() {
    for zeros in 0..=31 {
        for before in 0..=8 {
            let bytes = packed(&format!("{}{}", "1".repeat(before), number(zeros)));
            let place = before as u64;
            let all = 2 * zeros + 1;
            for there in 0..all {
                both_refused(&bytes, place + there as u64, place, out(missing(zeros, there)));
            }
            let after = place + all as u64;
            assert_eq!(golomb(&bytes, after, place).map(|(_, after)| after), Ok(after));
        }
    }
}

/// The same cut by the bytes, whatever more the bit count says.
#[test]
fn numbers_cut_by_the_bytes() {
    for zeros in 0..=31 {
        for there in 0..2 * zeros + 1 {
            let before = (8 - there % 8) % 8;
            let bytes = packed(&format!("{}{}", "1".repeat(before), &number(zeros)[..there]));
            let held = (before + there) as u64;
            assert_eq!(held, 8 * bytes.len() as u64);
            for count in [held, held + 1, held + 40, u64::MAX] {
                both_refused(&bytes, count, before as u64, out(missing(zeros, there)));
            }
        }
    }
}

/// Counts 1 to 31, one by one: the number of 31 zeros.
#[test]
fn each_count_of_exp_golomb() {
    let bytes = packed(&number(31));
    for count in 1..=31 {
        both_refused(&bytes, 63 - u64::from(count), 0, out(count));
    }
    both_refused(&packed("010"), 2, 0, out(1));
    both_refused(&packed("00100"), 3, 0, out(2));
    both_refused(&packed("00100"), 4, 0, out(1));
}

/// The zeros and the 1 are wanted bit by bit, so that 1 is missing; a place past the end counts as the end.
#[test]
fn places_at_and_past_the_end() {
    for (bytes, count) in [
        (&[0xFF; 2][..], 16),
        (&[0; 2], 16),
        (&[0; 2], 99),
        (&[0xFF; 2], 11),
        (&[0; 2], 0),
        (&[], 7),
    ] {
        let end = count.min(8 * bytes.len() as u64);
        for place in [end, end + 1, end + 2, end + 9, end + 31, end + 32, u64::MAX - 1, u64::MAX] {
            both_refused(bytes, count, place, out(1));
        }
    }
}

/// VALUE at the 32nd zero, where it is there; PAYLOAD OUT where fewer are, and a 1 that would follow is not.
#[test]
fn the_32nd_zero() {
    for ending in ["", "1", "0", "01"] {
        let bytes = packed(&format!("{}{}", "0".repeat(32), ending));
        for count in 0..32 {
            both_refused(&bytes, count, 0, out(1));
        }
        for count in 32..=8 * bytes.len() as u64 + 1 {
            both_refused(&bytes, count, 0, refused(8));
        }
    }
    // From the second zero on there are 31, and the 1: all of b is missing.
    let bytes = packed(&format!("{}1", "0".repeat(32)));
    both_refused(&bytes, 32, 1, out(1));
    both_refused(&bytes, 33, 1, out(31));
    both_refused(&bytes, 33, 0, refused(8));
}

#[test]
fn a_1_alone_wants_no_more() {
    assert_eq!(golomb(&[0x80], 1, 0), Ok((0, 1)));
    assert_eq!(golomb(&[0x01], 8, 7), Ok((0, 8)));
}

/// The first nine bits are one read.
#[test]
fn each_count_of_a_start() {
    for (there, missing) in (0..9).zip((1..=9).rev()) {
        for bytes in [[0; 2], [0xFF; 2], [0x55, 0xAA]] {
            assert_eq!(start(&bytes, there), Err(out(missing)));
        }
    }
    for count in [0, 8, 9, u64::MAX] {
        assert_eq!(start(&[], count), Err(out(9)));
    }
    for count in [8, 9, 10, u64::MAX] {
        assert_eq!(start(&[0xFF], count), Err(out(1)));
        assert_eq!(start(&[0], count), Err(out(1)));
    }
}

/// After the first nine a start wants bit by bit: zeros keep it at that.
#[test]
fn doublings_of_a_start() {
    // Bit 19 is the 1, and eight more bring it to 256.
    let bytes = [0, 0, 0x10, 0];
    for count in 9..28 {
        assert_eq!(start(&bytes, count), Err(out(1)));
    }
    assert_eq!(start(&bytes, 28).map(|state| state.place), Ok(28));
    for count in [32, 33, u64::MAX] {
        assert_eq!(start(&[0; 4], count), Err(out(1)));
    }
}

/// The place after a bin of each kind from one state, or its refusal: by one context, by a pair of it, bypass and stuffing.
fn each_kind(bytes: &[u8], count: u64, s: State, c: Context) -> [Result<u64, Unread>; 4] {
    [
        decode(bytes, count, s, c).map(|(_, after, _)| after.place),
        decode_pair(bytes, count, s, c, c).map(|(_, after, _, _)| after.place),
        bypass(bytes, count, s).map(|(_, after)| after.place),
        stuffing(bytes, count, s).map(|(_, after)| after.place),
    ]
}

/// Of each bit that a bin wants, one is missing where the payload ends before it.
#[test]
fn bins_want_bit_by_bit() {
    let bytes = packed(&format!("11111{}1{}", "0".repeat(30), "0".repeat(28)));
    let mut most = [0; 4];
    for (s, lg) in states_that_want(5).into_iter().flat_map(|s| [(s, 4), (s, 300), (s, 1023)]) {
        let c = Context { lg, ..fresh() };
        let whole = each_kind(&bytes, u64::MAX, s, c);
        for count in 5..64 {
            let cut = each_kind(&bytes, count, s, c);
            for ((cut, whole), most) in cut.into_iter().zip(whole).zip(&mut most) {
                let after = whole.unwrap();
                *most = after.max(*most);
                assert_eq!(cut, if count < after { Err(out(1)) } else { whole });
            }
        }
    }
    // All kinds have wanted bits past the thirty zeros.
    assert!(most.iter().all(|&after| after > 35), "{most:?}");
}

/// The bytes end where the bits do, and the count says more.
#[test]
fn bins_cut_by_the_bytes() {
    for (held, s) in [8, 16, 24]
        .into_iter()
        .flat_map(|held| states_that_want(held).into_iter().map(move |s| (held, s)))
    {
        let bytes = vec![0; held as usize / 8];
        // A bin that is the predicted one wants no bit.
        let wants_none = each_kind(&[0; 9], u64::MAX, s, fresh()).map(|after| after == Ok(held));
        let expected = wants_none.map(|none| if none { Ok(held) } else { Err(out(1)) });
        for count in [held, held + 1, u64::MAX] {
            assert_eq!(each_kind(&bytes, count, s, fresh()), expected);
        }
    }
}

/// TOO LONG and BAD STATE carry none, though bits would be missing too.
#[test]
fn other_refusals_carry_none() {
    let long = vec![0; 65_537];
    both_refused(&long, 0, 0, refused(13));
    both_refused(&long, 0, u64::MAX, refused(13));
    assert_eq!(start(&long, 0), Err(refused(13)));
    for s in states_that_want(5) {
        assert_eq!(each_kind(&long, 0, s, fresh()), [Err(refused(13)); 4]);
        assert_eq!(each_kind(&[], 0, s, fresh()), [Err(refused(15)); 4]);
    }
}
