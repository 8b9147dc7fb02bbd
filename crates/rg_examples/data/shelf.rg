// Regions in an array. An element is never `iso`, since `swap` and `enter` name what they take by a
// field; so the array has objects with an `iso` field each, and a region moves in and out by `swap`.
class Book {
  pages: int;
  next: mut Book;
}
class Box {
  books: mut Book;
  def mut add(pages: int) {
    let book: mut Book = new Book;
    book.pages = pages;
    book.next = self.books;
    self.books = book;
  }
  def paused pages(): int {
    let sum: int = 0;
    let at: paused Book = self.books;
    while not at is nil { sum = sum + at.pages; at = at.next; }
    return sum;
  }
}
class Slot {
  box: iso Box;
}
class Slots [mut Slot];
class Shelf {
  slots: mut Slots;
  def mut open(many: int) {
    self.slots = new Slots [many];
    let slots: mut Slots = self.slots;
    let k: int = 0;
    while k < many { slots[k] = new Slot; k = k + 1; }
  }
  // Puts a box at a place, and gives what was there: perhaps nothing.
  def mut change(place: int, box: iso Box): iso Box {
    let slots: mut Slots = self.slots;
    let slot: mut Slot = slots[place];
    swap box, slot.box;
    return box;
  }
  def mut pages(place: int): int {
    let slots: mut Slots = self.slots;
    let slot: mut Slot = slots[place];
    let pages: int = 0;
    if not slot.box is nil { enter slot.box as box { pages = call box.pages(); } }
    return pages;
  }
}
main arena {
  let shelf: mut Shelf = new Shelf;
  call shelf.open(4);
  let k: int = 0;
  while k < 4 {
    let box: iso Box = new iso Box in count;
    enter box as it { call it.add(100 * k); call it.add(k); }
    let old: iso Box = call shelf.change(k, box);
    print old is nil;
    k = k + 1;
  }
  // The box at place 3 goes to place 1, and the one that was there ends with `old`.
  let none: iso Box = nil;
  let moved: iso Box = call shelf.change(3, none);
  let old: iso Box = call shelf.change(1, moved);
  enter old as it { let pages: int = call it.pages(); print pages; }
  old = nil;
  k = 0;
  while k < 4 { let pages: int = call shelf.pages(k); print pages; k = k + 1; }
}
