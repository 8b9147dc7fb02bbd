// Regions in regions: an `iso` field owns a region beneath its own. Such a field is neither read
// nor assigned: `swap` exchanges it with an `iso` variable, and `enter` opens it where it is.
class Room {
  number: int;
  visits: int;
  inner: iso Room;
}
main trace {
  // Three rooms, the later ones around the earlier ones.
  let house: iso Room = nil;
  let k: int = 1;
  while k <= 3 {
    let around: iso Room = new iso Room in count;
    enter around as room {
      room.number = k;
      // `house` goes into the new room, and what was there, nil, comes out.
      swap house, room.inner;
    }
    house = around;
    k = k + 1;
  }

  // Each window is opened inside the one before it. Only the innermost region is written: the
  // rooms around it are paused.
  enter house as outer {
    outer.visits = 1;
    enter outer.inner as middle {
      middle.visits = outer.visits + 1;
      enter middle.inner as inmost {
        inmost.visits = middle.visits + 1;
        print inmost.number;
        print inmost.visits;
        print inmost.inner is nil;
      }
    }
    // The middle room is taken out, with the one in it.
    let out: iso Room = nil;
    swap out, outer.inner;
    print outer.inner is nil;
    enter out as room {
      print room.number;
    }
  }
}
