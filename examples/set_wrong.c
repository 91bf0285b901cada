int g;
void set(int v)
__CPROVER_requires(v < 100)
__CPROVER_assigns(g)
__CPROVER_ensures(g == v + 1)
{ g = v + 2; }
