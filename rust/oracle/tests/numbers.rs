use oracle::*;

// Document 01, "Worked by hand".
#[test]
fn numbers() {
    assert!(!is_aligned_to(0, 0));
    assert!(is_aligned_to(12, 4));
    assert!(!is_aligned_to(12, 3));
    assert_eq!(page_align_up(4096, 0), 4096);
    assert_eq!(page_align_up(4096, usize::MAX), usize::MAX);
    assert_eq!(page_align_up(0, 0), 1);
    assert_eq!(now_ms(999_999), 1);
    assert_eq!(now_ms(4_294_967_296_000_000), 1);
    assert_eq!(delay_ms(1_073_741_824), 1_073_741_823);
    assert_eq!(delay_ms(-1), 0);
    assert_eq!((arm(100, 50), arm(50, 100), arm(0, 0)), (50, 50, 1));
    assert_eq!(arm(2_147_483_648, 1), 1);
    assert_eq!(arm(2_147_483_649, 1), 2_147_483_649);
    assert!(!is_due(5, 4_294_967_290));
    assert!(!is_due(2_147_483_646, 0));
    assert!(is_due(2_147_483_647, 0));
}

// One test: the map is one for the whole process.
#[test]
fn pool() {
    set_pool_words(&[0; 2048]);
    assert!(free_range(65_536, 131_072));
    assert!(free_range(65_536, 65_536));
    assert_eq!(pool_words()[0], 6);
    assert_eq!(alloc_run(2), Some(65_536));
    assert_eq!(alloc_run(1), None);
    let mut words = [0; 2048];
    words[7] = 1 << 31;
    words[8] = 1;
    set_pool_words(&words);
    assert_eq!(alloc_run(2), Some(255 << 16));
    assert_eq!(pool_words(), [0; 2048]);
}
