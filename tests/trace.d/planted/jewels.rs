// Memory of Rust that is forgotten. Rc has 16 bytes before its value.
use std::cell::RefCell;
use std::rc::Rc;

// Older compilers have no std::hint::black_box.
fn black_box<T>(value: T) -> T {
    let copy = unsafe { std::ptr::read_volatile(&value) };
    std::mem::forget(value);
    copy
}

mod chest {
    pub struct Chest<T> {
        pub values: Vec<T>,
    }

    impl<T: Copy> Chest<T> {
        pub fn of(value: T, count: usize) -> Self {
            let mut values = Vec::with_capacity(count); // planted 800 in 1: jewels::chest::Chest::of
            values.resize(count, value);
            Chest { values }
        }
    }

    pub trait Keep {
        fn keep(&self) -> &'static [u8];
    }

    impl Keep for str {
        fn keep(&self) -> &'static [u8] {
            Box::leak(self.to_owned().into_boxed_str()).as_bytes() // planted 26 in 1: <str as jewels::chest::Keep>::keep
        }
    }
}

use chest::{Chest, Keep};

struct Link {
    next: RefCell<Option<Rc<Link>>>,
    rest: [u8; 40],
}

fn ring() -> usize {
    let first = Rc::new(Link { next: RefCell::new(None), rest: [7; 40] }); // planted 72 in 1: jewels::ring
    *first.next.borrow_mut() = Some(first.clone());
    first.rest.len()
}

fn boxes(count: usize) -> usize {
    let each = |number: usize| {
        black_box(Box::leak(Box::new([number; 4]))).len() // planted 160 in 5: jewels::boxes::{{closure}}
    };
    (0..count).map(each).sum()
}

fn main() {
    let chest = black_box(Chest::of(7u64, 100));
    let length = chest.values.len() + black_box("twenty-six bytes in a text".keep()).len();
    std::mem::forget(chest);
    let worker = std::thread::spawn(|| {
        std::mem::forget(black_box(vec![1u8; 333])); // planted 333 in 1: jewels::main::{{closure}}
    });
    worker.join().unwrap();
    println!("{}", length + ring() + boxes(5));
}
