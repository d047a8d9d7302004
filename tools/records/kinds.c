struct node { struct node *next; int v __attribute__((btf_decl_tag("t"))); };
typedef int num;
struct later;
union w { int i; float x; };
enum e { A = -1, B = 7 };
enum big { C = 4294967303LL };
struct f { unsigned a : 5; unsigned b : 3; };
struct all { const num *restrict p; volatile int q; int r[3]; struct later *s;
  int __attribute__((btf_type_tag("u"))) *t; union w u; enum e e; enum big g; struct f h; };
struct node n;
struct all y;
int (*pf)(const char *, ...);
int fn(int a) { return a; }
