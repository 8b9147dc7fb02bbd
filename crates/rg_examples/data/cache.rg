// A cache that is released whole: its entries lie in one region, and where there are too many of
// them the region goes, in one step, without a look at the entries.
class Entry {
  key: int;
  value: int;
  next: mut Entry;
}
class Entries {
  many: int;
  first: mut Entry;
  def mut add(key: int, value: int) {
    let entry: mut Entry = new Entry;
    entry.key = key;
    entry.value = value;
    entry.next = self.first;
    self.first = entry;
    self.many = self.many + 1;
  }
  // The entry of a key, or nil.
  def paused find(key: int): paused Entry {
    let at: paused Entry = self.first;
    let goes: bool = not at is nil;
    while goes {
      goes = at.key != key;
      if goes { at = at.next; goes = not at is nil; }
    }
    return at;
  }
}
class Cache {
  entries: iso Entries;
  hits: int;
  misses: int;
  fresh: int;
  // Another region stands in the place of the entries: the one that was there goes with `old`.
  def mut clear() {
    let old: iso Entries = new iso Entries in arena;
    swap old, self.entries;
    self.fresh = self.fresh + 1;
  }
  // The square of a number, computed where the cache doesn't have it.
  def mut square(key: int): int {
    let is_hit: bool = false;
    let many: int = 0;
    let value: int = 0;
    enter self.entries as entries {
      let entry: paused Entry = call entries.find(key);
      is_hit = not entry is nil;
      if is_hit { value = entry.value; }
      many = entries.many;
    }
    if is_hit { self.hits = self.hits + 1; } else {
      self.misses = self.misses + 1;
      if many == 8 { call self.clear(); }
      value = key * key;
      enter self.entries as entries { call entries.add(key, value); }
    }
    return value;
  }
}
main arena {
  let cache: mut Cache = new Cache;
  call cache.clear();
  let sum: int = 0;
  let k: int = 0;
  // The keys are 0 to 5 again and again for 60 turns, and then 0 to 39.
  while k < 100 {
    let key: int = k % 6;
    if k >= 60 { key = k - 60; }
    let value: int = call cache.square(key);
    sum = sum + value;
    k = k + 1;
  }
  print sum;
  print cache.hits;
  print cache.misses;
  print cache.fresh;
}
