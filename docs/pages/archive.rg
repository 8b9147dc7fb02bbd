// Parts are built in regions of their own, become one by `merge`, and are frozen for good.
class Page { number: int; next: mut Page; }
class Book { pages: mut Page; before: iso Book;
  def mut add(number: int) {
    let page: mut Page = new Page;
    page.number = number;
    page.next = self.pages;
    self.pages = page;
  }
}
class Shelf { book: imm Book; }
main trace {
  let all: iso Book = new iso Book in count;
  enter all as book { call book.add(1); }
  let part: iso Book = new iso Book in arena;
  enter part as book { call book.add(2); call book.add(3); }
  // The objects of the part become objects of the region that is open.
  enter all as book {
    let more_pages: mut Book = merge part;
    book.pages.next = more_pages.pages;
    let before: iso Book = new iso Book in trace;
    enter before as old { call old.add(0); }
    swap before, book.before;
    collect;
  }
  // The region is frozen, with the one inside it; two shelves share it.
  let archive: imm Book = freeze all;
  let left: mut Shelf = new Shelf;
  let right: mut Shelf = new Shelf;
  left.book = archive;
  right.book = archive.before;
  print left.book.pages.next.number;
  print right.book.pages.number;
}
