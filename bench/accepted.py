"""How long `reggio check` or `reggio code` takes on accepted sources of 64 KiB to 1 MiB: for code.sh.
Usage: accepted.py WORK PROGRAM TURNS COMMAND"""
import subprocess, sys, time

# 1,024 classes of 1,000 bytes at most: fields, methods that read, write and call, and a link to another class
def a_class(k):
    fields = "".join(f"  f{i}: int;\n" for i in range(14))
    read = "".join(f"    s = s + self.f{i} * {i + 1};\n" for i in range(14))
    write = "".join(f"    self.f{i} = k + {i};\n" for i in range(14))
    return (f"class C{k} {{\n{fields}  next: mut C{k};\n  before: imm C{max(k - 1, 0)};\n"
            f"  def paused sum(): int {{\n    let s: int = 0;\n{read}    return s;\n  }}\n"
            f"  def mut put(k: int) {{\n{write}    let c: mut C{k} = new C{k};\n    c.next = self;\n    call c.put(k);\n  }}\n}}\n")

# one body: assignments of numbers, truth values and objects, and calls
LONG = ("class N {\n  v: int;\n  next: mut N;\n  def mut add(k: int): int {\n    self.v = self.v + k;\n    return self.v;\n  }\n}\n"
        "main trace {\n  let k: int = 0;\n  let b: bool = true;\n  let n: mut N = new N;\n")
def a_statement(k):
    return (f"  k = k * 3 + {k % 1000};\n", "  b = not b and k < 7;\n", "  n.next = new N;\n", "  k = call n.add(k);\n", "  print n.next.v;\n")[k % 5]

# 60 blocks deep, over and over
def a_nest(k):
    opening = "".join(f"{'if k < 9' if i % 2 else 'while b'} {{\nk = k + {i};\n" for i in range(60))
    return opening + "}\n" * 60

# 256 variables, 64 of them `iso`: moves between them, and branches whose ends are joined
MANY = ("class N {\n  v: int;\n}\nmain trace {\n" + "".join(f"  let n{i}: int = {i};\n" for i in range(192))
        + "".join(f"  let y{i}: iso N = new iso N in trace;\n" for i in range(64)))
def a_move(k):
    i, j = k * 29 % 192, k * 53 % 192
    x, y = k * 13 % 64, (k * 13 + 1) % 64
    return (f"  n{i} = n{j} + n{191 - j};\n", f"  y{x} = y{y};\n  y{y} = nil;\n",
            f"  if n{i} < n{j} {{\n    y{x} = nil;\n  }} else {{\n    n{j} = n{i};\n  }}\n")[k % 3]

# sums of 500 operands
def a_sum(k):
    return "  k = " + " + ".join(f"k * {i % 10}" if i % 3 else f"(n.v - {i})" for i in range(250)) + ";\n"

SHORT = "class N {\n  v: int;\n}\nmain trace {\n  let k: int = 0;\n  let b: bool = false;\n  let n: mut N = new N;\n"
KINDS = {
    "many_classes": ("", a_class, "main arena {\n}\n"),
    "one_long_body": (LONG, a_statement, "}\n"),
    "deep_nesting": (SHORT, a_nest, "}\n"),
    "256_variables": (MANY, a_move, "}\n"),
    "long_expressions": (SHORT, a_sum, "}\n"),
}
SIZES = (64, 128, 256, 512, 1024)

def source(kind, size):
    head, piece, end = KINDS[kind]
    parts, length, k = [head], len(head) + len(end), 0
    while True:
        more = piece(k)
        if length + len(more) > size: break
        parts.append(more); length += len(more); k += 1
    return "".join(parts) + end + " " * (size - length)

work, program, turns, command = sys.argv[1], sys.argv[2], int(sys.argv[3]), sys.argv[4]

def once(path):
    at = time.perf_counter()
    done = subprocess.run([program, command, path], stdout=subprocess.PIPE)
    took = time.perf_counter() - at
    if done.returncode != 0 or not done.stdout.startswith({"check": b"accepted\n", "code": b"main:\n"}[command]): sys.exit(f"{path} is not accepted")
    return took, len(done.stdout)

print(f"{'kind':<18} {'KiB':>6} {'seconds':>10} {'ns/byte':>10} {'written':>10}")
for kind in KINDS:
    rates = []
    for kib in SIZES:
        path = f"{work}/{kind}.{kib}"
        with open(path, "w") as file: file.write(source(kind, kib * 1024))
        took, written = min(once(path) for _ in range(turns))
        rates.append(took * 1e9 / (kib * 1024))
        print(f"{kind:<18} {kib:>6} {took:>10.4f} {rates[-1]:>10.1f} {written:>10}")
    print(f"{kind:<18} the slowest is {max(rates) / min(rates):.2f} times the fastest")
