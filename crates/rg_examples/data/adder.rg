// Input: adds up the numbers of the standard input, and prints each sum on the way.
// `more` asks whether there is another number and takes nothing; `read` takes it. What is no
// number is the trap `input`, and `read` where nothing is left is the trap `end`.
main arena {
  let sum: int = 0;
  let numbers: int = 0;
  let go: bool = more;
  while go {
    let number: int = read;
    sum = sum + number;
    numbers = numbers + 1;
    print sum;
    go = more;
  }
  if numbers > 0 {
    // The mean; division truncates toward zero.
    print sum / numbers;
  }
}
