// The twin of examples/requests.rg: the arena of a request is a vector, and what leads into it is a place.
use std::io::{self, Read};

struct Item {
    value: i64,
    next: Option<usize>,
}

#[derive(Default)]
struct Request {
    items: Vec<Item>,
    first: Option<usize>,
    many: i64,
}

impl Request {
    fn add(&mut self, value: i64) {
        self.items.push(Item { value, next: self.first });
        self.first = Some(self.items.len() - 1);
        self.many += 1;
    }

    fn turn(&mut self) {
        let mut at = self.first.take();
        self.many = 0;
        while let Some(place) = at {
            let Item { value, next } = self.items[place];
            self.add(value);
            at = next;
        }
    }

    fn weighed(&self) -> i64 {
        let (mut sum, mut place, mut at) = (0, 1, self.first);
        while let Some(k) = at {
            let item = &self.items[k];
            sum += place * item.value;
            place += 1;
            at = item.next;
        }
        sum
    }
}

fn main() -> io::Result<()> {
    let mut text = String::new();
    io::stdin().read_to_string(&mut text)?;
    let mut numbers = text.split_whitespace().map(|word| word.parse::<i64>().unwrap());
    let (mut requests, mut most) = (0, 0);
    while let Some(many) = numbers.next() {
        let mut request = Request::default();
        for _ in 0..many {
            request.add(numbers.next().unwrap());
        }
        request.turn();
        let answer = request.weighed();
        requests += 1;
        most = most.max(answer);
        println!("{answer}");
    }
    println!("{requests}\n{most}");
    Ok(())
}
