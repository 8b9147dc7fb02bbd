#!/usr/bin/env bash
# How long `reggio fmt` takes, and how much memory, on sources of 64 KiB to 1 MiB of five kinds: many classes,
# long bodies, deep nesting, many different names, long comments; and on one path of many names, first of any names
# and then of names that are chosen so that a table with the kit's own hash finds them all at one place. For each it
# prints processor and wall seconds, and nanoseconds and bytes of memory per byte of the source, less those of an
# empty program; for each kind the ratio of the greatest to the smallest. Time and memory should stay within 1.5 for
# the five kinds, and 1 MiB of each within two seconds; names that are chosen should take at most twice the time of
# others. It needs python3 and a C compiler. The names are found in a minute or two.
# Not a part of the gate. Usage: bench/front.sh [TURNS [PROGRAM]]
set -eu
. "$(dirname "$0")/common.sh"

# Names of six bytes whose hashes agree in their low 16 bits, as many as 1 MiB has room for. The hash is the kit's
# FoldHasher: the length, and then each byte, is folded in by a multiplication, and at the end the halves into each
# other. The table of names had this hash; the one that it has begins with a digest of the source.
cat >"$work/alike.c" <<'C'
#include <stdint.h>
#include <stdio.h>
static const uint64_t seed = 0x243f6a8885a308d3, multiplier = 0x9e3779b97f4a7c15;
static const char first[] = "abcdefghijklmnopqrstuvwxyzABCDEFGHIJKLMNOPQRSTUVWXYZ_0123456789";
enum { LENGTH = 6, WANTED = 150000 };
static char name[LENGTH + 1];
static int found;

static uint64_t fold(uint64_t a, uint64_t b) {
  unsigned __int128 product = (unsigned __int128)a * b;
  return (uint64_t)product ^ (uint64_t)(product >> 64);
}

static void extend(int at, uint64_t state) {
  if (at == LENGTH) {
    if (((state ^ state >> 32) & 0xffff) == 0) {
      puts(name);
      found++;
    }
    return;
  }
  for (int i = 0; i < (at == 0 ? 53 : 63) && found < WANTED; i++) {
    name[at] = first[i];
    extend(at + 1, fold(state ^ (uint64_t)first[i] * 0x10101, multiplier ^ 2));
  }
}

int main(void) {
  extend(0, fold(seed ^ LENGTH, multiplier ^ 16));
  return 0;
}
C
cc -O2 -o "$work/alike" "$work/alike.c"
"$work/alike" >"$work/alike.names"

# Runs a program some times; prints the least processor and wall seconds and the least peak of memory in KiB.
# A small process starts it, since the peak of a new process counts that of the one which started it.
cat >"$work/measure.c" <<'C'
#define _GNU_SOURCE
#include <fcntl.h>
#include <stdio.h>
#include <stdlib.h>
#include <sys/resource.h>
#include <sys/wait.h>
#include <time.h>
#include <unistd.h>

static double seconds(struct timeval t) { return t.tv_sec + t.tv_usec / 1e6; }

static double now(void) {
  struct timespec t;
  clock_gettime(CLOCK_MONOTONIC, &t);
  return t.tv_sec + t.tv_nsec / 1e9;
}

int main(int count, char **words) {
  double processor = 1e9, wall = 1e9;
  long memory = 1L << 40;
  for (int turn = atoi(words[1]); turn > 0 && count > 2; turn--) {
    double began = now();
    pid_t child = fork();
    if (child == 0) {
      dup2(open("/dev/null", O_WRONLY), 1);
      execv(words[2], words + 2);
      _exit(127);
    }
    int status;
    struct rusage used;
    wait4(child, &status, 0, &used);
    if (status != 0) return 1;
    double spent = seconds(used.ru_utime) + seconds(used.ru_stime), passed = now() - began;
    if (spent < processor) processor = spent;
    if (passed < wall) wall = passed;
    if (used.ru_maxrss < memory) memory = used.ru_maxrss;
  }
  printf("%.6f %.6f %ld\n", processor, wall, memory);
  return 0;
}
C
cc -O2 -o "$work/measure" "$work/measure.c"

python3 - "$program" "$work" "${1:-20}" <<'PY'
import itertools, subprocess, sys
program, work, turns = sys.argv[1:]
sizes = (64, 128, 256, 512, 1024)

def filled(size, head, parts, tail):
    """The head, as many parts as fit, blanks, and the tail."""
    kept, length = [head], len(head) + len(tail)
    for part in parts:
        if length + len(part) > size:
            break
        kept.append(part)
        length += len(part)
    return "".join(kept) + " " * (size - length) + tail

def many_classes(size):
    members = "".join(f"  f{i}: {'int' if i % 16 < 5 else f'mut C{i * 16}'};\n" for i in range(64))
    return filled(size, "", (f"class C{i} {{\n{members}}}\n" for i in range(1024)), "main arena {\n}\n")

def long_bodies(size):
    lets = "".join(f"  let name_{i}: int = {i * 7919};\n" for i in range(256))
    statements = (f"  name_{i * 101 % 256} = name_{i % 256} * {i % 1000} + (name_{i * 7 % 256} - {i % 77}) / 3;\n"
                  f"  if name_{i % 256} < {i % 500} {{ print -name_{i % 256}; }}\n" for i in itertools.count())
    return filled(size, "main trace {\n" + lets, statements, "}\n")

def deep_nesting(size):
    nest = "while a {" * 31 + "print " + "(" * 32 + "1" + ")" * 32 + ";" + "}" * 31 + "\n"
    return filled(size, "main arena {\n", itertools.repeat(nest), "}\n")

def many_names(size):
    return filled(size, "main arena {\n", (f"print n{i * 48271 % 1000003}.m{i};\n" for i in itertools.count()), "}\n")

def long_comments(size):
    comment = "// " + "any byte may stand in a comment, ! and # and ~ too; " * 100 + "\nprint 1;\n"
    return filled(size, "main arena {\n", itertools.repeat(comment), "}\n")

def one_path(size, names):
    return filled(size, "main arena {\nprint a", ("." + name for name in names), ";}\n")

def names_apart(size):
    letters = "abcdefghijklmnopqrstuvwxyzABCDEFGHIJKLMNOPQRSTUVWXYZ_0123456789"
    numbers = (k * 2654435761 % 2**32 for k in itertools.count(1))
    return one_path(size, ("x" + "".join(letters[n // 63**at % 63] for at in range(5)) for n in numbers))

def names_alike(size):
    with open(f"{work}/alike.names") as f:
        return one_path(size, (line.strip() for line in f))

def best(source):
    """The least processor seconds, wall seconds and peak bytes of some calls."""
    path = f"{work}/source.rg"
    with open(path, "w") as f:
        f.write(source)
    ran = subprocess.run([f"{work}/measure", turns, program, "fmt", path], stdout=subprocess.PIPE, check=True, text=True)
    processor, wall, memory = ran.stdout.split()
    return float(processor), float(wall), int(memory) * 1024

kinds = (many_classes, long_bodies, deep_nesting, many_names, long_comments, names_apart, names_alike)
longest = {}
empty = best("main arena {\n}\n")
print(f"an empty program: {empty[0]:.4f} s, {empty[2]} bytes")
print(f"{'kind':<16}{'KiB':>6}{'seconds':>10}{'wall':>10}{'ns/byte':>10}{'bytes/byte':>12}")
for kind in kinds:
    times, memories = [], []
    for kib in sizes:
        used = best(kind(kib * 1024))
        times.append((used[0] - empty[0]) * 1e9 / (kib * 1024))
        memories.append((used[2] - empty[2]) / (kib * 1024))
        print(f"{kind.__name__:<16}{kib:>6}{used[0]:>10.4f}{used[1]:>10.4f}{times[-1]:>10.1f}{memories[-1]:>12.1f}", flush=True)
    print(f"{kind.__name__:<16} greatest to smallest: time {max(times) / min(times):.2f}, "
          f"memory {max(memories) / min(memories):.2f}; the last {'within' if used[1] < 2 else 'PAST'} two seconds", flush=True)
    longest[kind] = used[0]
print(f"names_alike takes {longest[names_alike] / longest[names_apart]:.2f} times as long as names_apart")
PY
