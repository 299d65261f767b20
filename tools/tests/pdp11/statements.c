/* Declarations and statements of C: what it must print stands in test_c.py. */
#include <stdarg.h>
#include <stdio.h>
#include <string.h>
#include <stdlib.h>
struct point { int x, y; };
struct box { struct point a, b; char name[5]; };
union both { int word; char bytes[2]; };
struct bits { unsigned low : 3, mid : 5, high : 8; };
enum color { RED, GREEN = 5, BLUE };
typedef int (*op)(int, int);
static int add(int a, int b) { return a + b; }
static int sub(int a, int b) { return a - b; }
static op ops[] = { add, sub };
static int grid[3][4] = { { 1, 2, 3, 4 }, { 5, 6, 7 }, { 9 } };
static const char *words[] = { "zero", "one", "two", 0 };
static struct box boxes[2] = { { { 1, 2 }, { 3, 4 }, "ab" }, { .b = { 7, 8 }, .name = "wxyz" } };
static struct point mid(struct box b) { struct point p; p.x = (b.a.x + b.b.x) / 2; p.y = (b.a.y + b.b.y) / 2; return p; }
static long fact(int n) { return n < 2 ? 1 : n * fact(n - 1); }
static int counter(void) { static int n = 10; return n++; }
static int sum(int n, ...) { va_list l; int s = 0; va_start(l, n); while (n-- > 0) s += va_arg(l, int); va_end(l); return s; }
static int kind(int c) { switch (c) { case 'a': case 'b': return 1; case 'z': return 2; case 1000: return 3; default: return -1; } }
static void hanoi(int n, int a, int b, int c, int *moves) { if (n == 0) return; hanoi(n - 1, a, c, b, moves); ++*moves; hanoi(n - 1, c, b, a, moves); }
int main(void) {
  union both u; struct bits f; struct point p, *q = &p; struct box b = boxes[1];
  int i, j, n = 0, moves = 0; long total = 0; char text[20], *s; unsigned char uc = 200; char c = -56;
  int local[3] = { 1, 2 };
  for (i = 0; i < 3; i++) for (j = 0; j < 4; j++) total += grid[i][j];
  printf("%ld %s %s %d\n", total, words[2], boxes[1].name, boxes[0].b.y);
  p = mid(boxes[0]); printf("%d %d %d\n", q->x, q->y, mid(b).x);
  u.word = 0x4142; printf("%c%c\n", u.bytes[0], u.bytes[1]);
  f.low = 9; f.mid = 21; f.high = 200; f.mid++; printf("%d %d %d %d\n", f.low, f.mid, f.high, (int)sizeof f);
  printf("%d %d %d\n", ops[0](3, 4), ops[1](3, 4), BLUE);
  printf("%ld %ld\n", fact(10), fact(12));
  counter(); printf("%d\n", counter());
  printf("%d %d %d %d %d\n", sum(3, 10, 20, -5), kind('b'), kind('z'), kind(1000), kind(7));
  hanoi(6, 1, 2, 3, &moves); printf("%d\n", moves);
  strcpy(text, "hello"); strcat(text, ", world"); for (s = text; *s; s++) if (*s == 'o') *s = '0'; puts(text);
again: if (++n < 3) goto again; printf("%d\n", n);
  printf("%d %d %d\n", uc == (unsigned char)c, uc > 100, c < 0);
  do { n += 2; if (n > 10) break; if (n == 7) continue; } while (n < 20); printf("%d\n", n);
  printf("%d %d %d\n", local[0], local[1], local[2]);
  printf("%d %d\n", (int)sizeof(struct box), (int)sizeof(long));
  for (i = 0, j = 10; i < j; i++, j--) ; printf("%d %d\n", i, j);
  printf("%s\n", i == 5 && j == 5 || n ? "yes" : "no");
  { int *ip = local + 2, *jp = local; printf("%d\n", (int)(ip - jp)); *--ip = 9; printf("%d\n", local[1]); }
  printf("%x %o %u\n", 0xffff, 0177777, 65535u);
  { int (*g)[4] = grid; g++; printf("%d\n", (*g)[2]); }
  { unsigned long ul = 0xdeadbeefUL; printf("%lx %lx %lx\n", ul >> 4, ul << 8, ul / 1000); }
  { long x = -1000000L; printf("%ld %ld %ld\n", x / 7, x % 7, x >> 3); }
  return 0;
}
