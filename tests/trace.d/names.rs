// Names of Rust: what is forgotten leaks. tests/trace knows how it is told.
struct Item {
    name: String,
}

impl Clone for Item {
    fn clone(&self) -> Self {
        Item { name: self.name.clone() }
    }
}

fn grow(list: &mut Vec<u64>) {
    for k in 0..100 {
        list.push(k);
    }
}

fn main() {
    let mut list = Vec::new();
    grow(&mut list);
    std::mem::forget(list);
    let item = Item { name: String::from("apple") };
    std::mem::forget(item.clone());
    std::mem::forget(item);
    std::mem::forget(format!("{} {}", 1, "pear"));
    std::mem::forget(Box::new([0u8; 50]));
    let map: std::collections::HashMap<u32, u32> = (0..10).map(|k| (k, k)).collect();
    std::mem::forget(map);
    std::thread::spawn(|| std::mem::forget(vec![1u8; 33])).join().unwrap();
}
