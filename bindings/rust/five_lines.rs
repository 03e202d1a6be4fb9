let bytes = rkyv_btree::Builder::new().entry("apple", 3u32).entry("pear", 5).build()?;
let prices = rkyv_btree::Map::<&str, u32>::open(&bytes)?;
assert_eq!(prices.get("pear"), Some(5));
assert_eq!(prices.range("b"..).collect::<Vec<_>>(), [("pear", 5)]);
assert_eq!(rkyv_btree::find::<&str, u32>(&bytes, "apple")?, Some(3));
