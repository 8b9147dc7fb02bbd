// The twin of examples/doubly.rg: counted nodes, weak references back, and a test at run time of each borrow.
use std::cell::RefCell;
use std::rc::{Rc, Weak};

struct Node {
    value: i64,
    before: Option<Weak<RefCell<Node>>>,
    behind: Option<Rc<RefCell<Node>>>,
}

type Link = Option<Rc<RefCell<Node>>>;

fn above(node: &Rc<RefCell<Node>>) -> Link {
    node.borrow().before.as_ref().and_then(Weak::upgrade)
}

#[derive(Default)]
struct List {
    first: Link,
    last: Link,
}

impl List {
    fn push(&mut self, value: i64) {
        let before = self.last.as_ref().map(Rc::downgrade);
        let node = Rc::new(RefCell::new(Node { value, before, behind: None }));
        match &self.last {
            None => self.first = Some(node.clone()),
            Some(last) => last.borrow_mut().behind = Some(node.clone()),
        }
        self.last = Some(node);
    }

    fn take_out(&mut self, node: &Rc<RefCell<Node>>) {
        let (before, behind) = (above(node), node.borrow().behind.clone());
        match &before {
            None => self.first = behind.clone(),
            Some(before) => before.borrow_mut().behind = behind.clone(),
        }
        match &behind {
            None => self.last = before,
            Some(behind) => behind.borrow_mut().before = before.as_ref().map(Rc::downgrade),
        }
    }

    fn thin(&mut self, number: i64) {
        let mut at = self.first.clone();
        while let Some(node) = at {
            if node.borrow().value % number == 0 {
                self.take_out(&node);
            }
            at = node.borrow().behind.clone();
        }
    }

    fn sum(&self, start: &Link, next: impl Fn(&Rc<RefCell<Node>>) -> Link) -> i64 {
        let (mut sum, mut at) = (0, start.clone());
        while let Some(node) = at {
            sum = sum * 3 + node.borrow().value;
            at = next(&node);
        }
        sum
    }
}

fn main() {
    let mut list = List::default();
    (1..=10).for_each(|k| list.push(k));
    list.thin(2);
    println!("{}", list.sum(&list.first, |node| node.borrow().behind.clone()));
    println!("{}", list.sum(&list.last, above));
    // Nothing freezes it: whoever has a node may still borrow it to write.
    let first = list.first.as_ref().unwrap();
    let second = first.borrow().behind.clone().unwrap();
    println!("{}", above(&second).is_some_and(|node| Rc::ptr_eq(&node, first)));
    println!("{}", list.last.as_ref().unwrap().borrow().value);
}
