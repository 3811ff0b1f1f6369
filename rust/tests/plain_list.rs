// The store beside a plain sorted list, on pseudo-random reads.
use readstore::Store;
use std::collections::BTreeSet;

struct Dice(u64);
impl Dice {
    fn roll(&mut self, below: u64) -> u64 {
        self.0 ^= self.0 << 13;
        self.0 ^= self.0 >> 7;
        self.0 ^= self.0 << 17;
        self.0 % below
    }
}

#[test]
fn says_what_a_sorted_list_says() {
    let mut dice = Dice(0x9E37_79B9_7F4A_7C15);
    for round in 0..40 {
        let span = [200, 3_000, 1 << 20, 1 << 44][round % 4];
        let mut list: BTreeSet<u64> = (0..=dice.roll(150)).map(|_| dice.roll(span)).collect();
        let loaded: Vec<u64> = list.iter().copied().collect();
        let mut store = Store::load(&loaded, dice.roll(5), 1 + dice.roll(8)).unwrap();
        for _ in 0..400 {
            let k = dice.roll(span);
            match store.insert(k) {
                Ok(_) => assert!(list.insert(k), "{k} was there already"),
                Err(r) => assert_eq!((r.number, list.contains(&k)), (5, true), "{k}"),
            }
            let q = dice.roll(span);
            assert_eq!(store.contains(q).unwrap(), list.contains(&q), "{q}");
        }
        let (a, b) = (dice.roll(span), dice.roll(span));
        let (low, high) = (a.min(b), a.max(b));
        assert_eq!(store.range(low..=high).unwrap(), list.range(low..=high).copied().collect::<Vec<_>>());
        assert_eq!(store.len(), list.len());
        store.check().unwrap();
        let bytes = store.to_bytes().unwrap();
        let again = Store::from_bytes(&bytes).unwrap();
        again.check().unwrap();
        assert_eq!(again.to_bytes().unwrap(), bytes);
        assert_eq!(again.range(0..=(1 << 44) - 1).unwrap(), list.iter().copied().collect::<Vec<_>>());
    }
}

#[test]
fn refusals_say_why() {
    assert_eq!(Store::load(&[1, 5, 5], 0, 1).unwrap_err().to_string(), "the key at position 2 is not above the one before");
    assert_eq!(Store::load(&[1], 0, 65).unwrap_err().number, 1);
    assert_eq!(Store::load(&[1 << 44], 0, 1).unwrap_err().number, 2);
    assert_eq!(Store::from_bytes(b"").unwrap_err().to_string(), "the image is malformed: the record at byte 0");
}
