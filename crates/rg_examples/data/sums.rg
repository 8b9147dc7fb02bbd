// Numbers, variables and loops: the sum of the numbers from 1 to 100, that of the odd ones,
// and the greatest common divisor of two numbers.
main arena {
  let sum: int = 0;
  let odd: int = 0;
  let k: int = 1;
  while k <= 100 {
    sum = sum + k;
    // A remainder has the sign of the dividend, so this holds for each odd number above 0.
    if k % 2 == 1 {
      odd = odd + k;
    }
    k = k + 1;
  }
  print sum;
  print odd;

  let a: int = 1071;
  let b: int = 462;
  while b != 0 {
    // `rest` is a variable of this block: it ends with each turn.
    let rest: int = a % b;
    a = b;
    b = rest;
  }
  print a;
  print a < 100 and sum == odd * 2 + 50;
}
