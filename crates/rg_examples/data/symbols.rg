// A symbol table: a hash table of names in scopes, filled in a region and frozen at the end. The
// language has no text, so a name is a number here; a new name of an inner scope hides an outer one.
class Symbol {
  name: int;
  scope: int;
  serial: int;
  // What has the same place in the table, the newest one first.
  next: mut Symbol;
  // What was declared before it, whatever its place.
  older: mut Symbol;
}
class Places [mut Symbol];
class Table {
  places: mut Places;
  newest: mut Symbol;
  scope: int;
  made: int;
  def mut declare(name: int) {
    let places: mut Places = self.places;
    let at: int = name % size places;
    let symbol: mut Symbol = new Symbol;
    symbol.name = name;
    symbol.scope = self.scope;
    symbol.serial = self.made;
    symbol.next = places[at];
    symbol.older = self.newest;
    places[at] = symbol;
    self.newest = symbol;
    self.made = self.made + 1;
  }
  def mut open() { self.scope = self.scope + 1; }
  // The symbols of the scope go: each is the first one at its place.
  def mut close() {
    let places: mut Places = self.places;
    let symbol: mut Symbol = self.newest;
    let goes: bool = not symbol is nil;
    while goes {
      goes = symbol.scope == self.scope;
      if goes {
        places[symbol.name % size places] = symbol.next;
        symbol = symbol.older;
        goes = not symbol is nil;
      }
    }
    self.newest = symbol;
    self.scope = self.scope - 1;
  }
  // The serial of what a name means here, or -1.
  def paused meaning(name: int): int {
    let places: paused Places = self.places;
    let symbol: paused Symbol = places[name % size places];
    let found: int = -1;
    while not symbol is nil {
      if symbol.name == name and found < 0 { found = symbol.serial; }
      symbol = symbol.next;
    }
    return found;
  }
}
main arena {
  let box: iso Table = new iso Table in trace;
  enter box as table {
    table.places = new Places [8];
    let name: int = 0;
    while name < 20 { call table.declare(name); name = name + 1; }
    call table.open();
    name = 0;
    while name < 20 { call table.declare(name); name = name + 3; }
    let meaning: int = call table.meaning(9);
    print meaning;
    meaning = call table.meaning(10);
    print meaning;
    call table.close();
    // The seven symbols of the inner scope are reached by nothing.
    collect;
    meaning = call table.meaning(9);
    print meaning;
  }
  // From here on the table is read by whoever wants to, and changed by nobody.
  let table: imm Table = freeze box;
  let known: int = call table.meaning(19);
  let unknown: int = call table.meaning(27);
  print known;
  print unknown;
}
