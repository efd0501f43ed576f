/* Functions that call each other, for tools/try_walks: by name and through pointers, with large frames, alloca, floats, tail calls
   and leaf functions. */

typedef unsigned long long u64;
typedef u64 (*function)(u64);

#define KEPT __attribute__((noinline)) static

int _fltused = 1; /* asked for where there are floats */

static volatile u64 sink;
static unsigned seed = 1;

static u64 one(u64 n);

KEPT unsigned random_number(void)
{
    seed ^= seed << 13;
    seed ^= seed >> 17;
    return seed ^= seed << 5;
}

KEPT u64 leaf(u64 a, u64 b)
{
    for (u64 i = 0; i < (b & 7); i++)
        a = a * 31 + i;
    return a;
}

KEPT u64 large(u64 n)
{
    volatile u64 words[600];
    words[n % 600] = n;
    return one(n / 2) + words[n % 600];
}

KEPT u64 larger(u64 n)
{
    volatile char bytes[6000];
    bytes[n % 6000] = (char)n;
    return leaf(n, (u64)bytes[n % 6000]) + (n > 3 ? large(n - 3) : 0);
}

KEPT u64 of_any_size(u64 n)
{
    unsigned size = 16 + random_number() % 256;
    volatile char *bytes = __builtin_alloca(size);
    bytes[n % size] = 1;
    return (n > 2 ? one(n - 2) : leaf(n, 5)) + (u64)bytes[n % size];
}

KEPT u64 jumps(u64 n)
{
    sink = n;
    return large(n / 3);
}

static function volatile functions[4] = {large, larger, of_any_size, jumps};

/* Six doubles live over a call, so that registers of callers are saved. */
KEPT double floats(double a, double b, int n)
{
    double x = a * b, y = a + b, z = a - b, w = a / (b + 1), v = x * y, u = y * z;
    for (int i = 0; i < n; i++) {
        x += (double)leaf((u64)i, 3);
        y += x * z, z += w, w -= v, v += u, u *= 0.5;
    }
    return x + y + z + w + v + u;
}

KEPT u64 one(u64 n)
{
    if (n == 0)
        return leaf(1, 2);
    u64 sum = functions[random_number() % 4](n - 1);
    sum += (u64)floats((double)n, 2.5, 3);
    return sum ^ leaf(sum, n);
}

KEPT u64 many(u64 a, u64 b, u64 c, u64 d, u64 e, u64 f)
{
    u64 sum = 0;
    for (u64 i = 0; i < 6; i++) {
        sum += leaf(a, i) + leaf(b, i) * c + one(i & 3) + d * e + f;
        a ^= sum, b += a, c -= b, d ^= c, e += d, f -= e;
    }
    return sum;
}

int start(void)
{
    for (int i = 0; i < 12; i++) {
        sink = one(random_number() % 40);
        sink = many(1, 2, 3, 4, 5, (u64)i);
    }
    return (int)sink;
}
