// An undo log: what was there before each change lies in a region of its own, the log. To undo is to
// write it back, from the newest entry on; to commit is to let the region go, whole.
class Row [int];
class Entry {
  place: int;
  old: int;
  older: mut Entry;
}
class Log {
  newest: mut Entry;
  def mut note(place: int, old: int) {
    let entry: mut Entry = new Entry;
    entry.place = place;
    entry.old = old;
    entry.older = self.newest;
    self.newest = entry;
  }
}
class Sheet {
  row: mut Row;
  log: iso Log;
  // An entry has a place and a number, and no reference to the row: it lies in another region.
  def mut put(place: int, value: int) {
    let row: mut Row = self.row;
    let old: int = row[place];
    enter self.log as log { call log.note(place, old); }
    row[place] = value;
  }
  // Another log takes the place of the one that was there, which goes with `log`.
  def mut commit() {
    let log: iso Log = new iso Log in arena;
    swap log, self.log;
  }
  def mut undo() {
    let row: mut Row = self.row;
    let goes: bool = true;
    while goes {
      let place: int = 0;
      let old: int = 0;
      enter self.log as log {
        goes = not log.newest is nil;
        if goes {
          place = log.newest.place;
          old = log.newest.old;
          log.newest = log.newest.older;
        }
      }
      if goes { row[place] = old; }
    }
    call self.commit();
  }
  def paused sum(): int {
    let row: paused Row = self.row;
    let sum: int = 0;
    let k: int = 0;
    while k < size row { sum = sum * 2 + row[k]; k = k + 1; }
    return sum;
  }
}
main arena {
  let sheet: mut Sheet = new Sheet;
  sheet.row = new Row [8];
  call sheet.commit();

  let k: int = 0;
  while k < 8 { call sheet.put(k, 1); k = k + 1; }
  call sheet.commit();
  let sum: int = call sheet.sum();
  print sum;

  // Each place is written twice, and then both are taken back.
  k = 0;
  while k < 16 { call sheet.put(k % 8, k); k = k + 1; }
  sum = call sheet.sum();
  print sum;
  call sheet.undo();
  sum = call sheet.sum();
  print sum;
}
