//! Recordings: the bytes of small files, what is read back, and each refusal.

use oracle::refusal::number;
use oracle::wav::{file, read, write};

/// What reading gives: the number, the rate, the count, and three lent samples.
fn read_three(file: &[u8]) -> (u32, u32, usize, [i32; 3]) {
    let mut lent = [77; 3];
    let (answer, rate, count) = read(file, &mut lent);
    (number(&answer), rate, count, lent)
}

#[test]
fn the_bytes_of_a_file() {
    let expected = b"RIFF\x28\0\0\0WAVEfmt \x10\0\0\0\x01\0\x01\0\x44\xac\0\0\xcc\x04\x02\0\x03\0\x18\0data\x03\0\0\0\x6e\xbc\xff\0";
    assert_eq!(file(44_100, &[-17_298]), expected);
    assert_eq!(file(44_100, &[]).len(), 44);
    assert_eq!(file(44_100, &[1, -1]).len(), 50);
}

#[test]
fn written_files_read_back() {
    for rate in [8_000, 44_100, 192_000] {
        for samples in [&[][..], &[5], &[8_388_607, -8_388_607], &[-1, 0, 1]] {
            let mut lent = [0x4d; 60];
            let (answer, count) = write(rate, samples, &mut lent);
            assert_eq!((number(&answer), count), (0, file(rate, samples).len()));
            assert!(lent[count..].iter().all(|byte| *byte == 0x4d));
            let (answer, read_rate, read_count, read) = read_three(&lent[..count]);
            assert_eq!((answer, read_rate, read_count), (0, rate, samples.len()));
            assert_eq!(&read[..read_count], samples);
        }
    }
}

#[test]
fn refusals() {
    let refused = |rate, samples: &[i32], room| number(&write(rate, samples, &mut vec![0; room]).0);
    assert_eq!(refused(7_999, &[i32::MAX], 0), 17);
    assert_eq!(refused(8_000, &[i32::MAX], 47), 18);
    assert_eq!(refused(8_000, &[8_388_608], 48), 10);
    assert_eq!(refused(8_000, &vec![0; 1_000_001], 4_000_000), 18);
    assert_eq!(read_three(&file(7_999, &[1, 2, 3, 4])), (17, 0, 0, [77; 3]));
    assert_eq!(read_three(&file(8_000, &[1, 2, 3, 4])), (18, 0, 0, [77; 3]));
    assert_eq!(read_three(&file(1_431_655_765, &[1])).0, 17);
    assert_eq!(read_three(&file(1_431_655_766, &[1])).0, 19);
    assert_eq!(read_three(&file(8_000, &[-8_388_608, 1])), (0, 8_000, 2, [-8_388_607, 1, 77]));
    let mut odd = file(8_000, &[1]);
    *odd.last_mut().unwrap() = 1;
    assert_eq!(read_three(&odd).0, 19);
    assert_eq!(read_three(b"RIFF").0, 19);
    assert_eq!(read_three(b"").0, 19);
}
