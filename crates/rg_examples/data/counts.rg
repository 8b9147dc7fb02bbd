// Arrays: a class whose objects have elements of one type, as many as an array is made with. A
// place counts from 0, and one that isn't there stops the program by a trap.
class Row [int];
class Words [mut Word];
class Word {
  uses: int;
}
class Counts {
  // How often each number was counted.
  row: mut Row;

  def mut open(limit: int) { self.row = new Row [limit]; }

  def mut add(number: int) {
    let row: mut Row = self.row;
    row[number] = row[number] + 1;
  }

  // The number that was counted most often, the least one where there are several.
  def paused most(): int {
    let row: paused Row = self.row;
    let most: int = 0;
    let k: int = 1;
    while k < size row { if row[k] > row[most] { most = k; } k = k + 1; }
    return most;
  }
}
main trace {
  // How often each last digit ends the squares of 0 to 99.
  let digits: mut Counts = new Counts;
  call digits.open(10);
  let k: int = 0;
  while k < 100 { call digits.add(k * k % 10); k = k + 1; }
  let row: mut Row = digits.row;
  print row[0];
  print row[3];
  let most: int = call digits.most();
  print most;

  // Elements that are references start as nil, as fields do.
  let words: mut Words = new Words [3];
  let word: mut Word = words[0];
  print word is nil;
  words[0] = new Word;
  words[2] = words[0];
  word = words[2];
  word.uses = size words;
  word = words[0];
  print word.uses;
}
