use independent::receiver::write_marks;

#[test]
fn marks() {
    for length in [0, 1, 2, 3, 7, 9, 10] {
        for count in [0, 1, 2, 3, 4, 32_767, usize::MAX] {
            let mut space = vec![0x55; length];
            let written = write_marks(count, &mut space);
            assert_eq!(written, count.min(length / 3));
            let (marks, rest) = space.split_at(3 * written);
            assert_eq!(marks, [0xef, 0xbf, 0xbd].repeat(written));
            assert!(rest.iter().all(|&byte| byte == 0x55));
        }
    }
}
