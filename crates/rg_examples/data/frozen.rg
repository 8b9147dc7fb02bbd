// Freezing: a region that never changes again, with all regions beneath it. References to frozen
// objects are `imm`; they are copied and kept anywhere, in fields of any region, too.
class Price {
  item: int;
  cents: int;
  next: mut Price;
  older: iso Price;
}
class Order {
  prices: imm Price;
  cents: int;
  def mut add(item: int) {
    let at: imm Price = self.prices;
    while not at is nil {
      if at.item == item {
        self.cents = self.cents + at.cents;
      }
      // Through `imm` all is read as `imm`, whatever the field's own capability.
      at = at.next;
    }
  }
}
main trace {
  let old: iso Price = new iso Price in arena;
  enter old as price { price.item = 1; price.cents = 90; }
  let list: iso Price = new iso Price in arena;
  enter list as price {
    price.item = 1;
    price.cents = 99;
    price.next = new Price;
    price.next.item = 2;
    price.next.cents = 250;
    swap old, price.older;
  }

  // This uses `list` up.
  let prices: imm Price = freeze list;
  print prices.cents - prices.older.cents;

  // Two orders share the prices: one among main's objects, one in a region of its own.
  let first: mut Order = new Order;
  first.prices = prices;
  call first.add(1);
  call first.add(2);
  print first.cents;
  let second: iso Order = new iso Order in count;
  enter second as order {
    order.prices = prices;
    call order.add(2);
    print order.cents;
    print order.prices == prices;
  }
}
