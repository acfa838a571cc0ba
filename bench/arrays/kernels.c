/* The kernels of this folder in C: kernels NAME N [TURNS]. */
#include <inttypes.h>
#include <stdio.h>
#include <stdlib.h>
#include <string.h>

static int64_t *numbers(int64_t n) {
    int64_t *xs = malloc((size_t)(n ? n : 1) * sizeof *xs);
    if (!xs) exit(1);
    return xs;
}

static int64_t map_sum(int64_t n) {
    int64_t *xs = numbers(n), sum = 0;
    for (int64_t i = 0; i < n; i++) xs[i] = i * 3 + 1;
    for (int64_t i = 0; i < n; i++) sum += xs[i];
    free(xs);
    return sum;
}

static int64_t dot(int64_t n) {
    int64_t *ys = numbers(n), sum = 0;
    for (int64_t i = 0; i < n; i++) ys[i] = (i * 37 + 11) % 101;
    for (int64_t i = 0; i < n; i++) sum += i * ys[i];
    free(ys);
    return sum;
}

static int64_t scan(int64_t n) {
    int64_t *xs = numbers(n), sum = 0, least = INT64_MAX;
    for (int64_t i = 0; i < n; i++) xs[i] = (i * 37 + 5) % 201 - 100;
    for (int64_t i = 0; i < n; i++) {
        sum += xs[i];
        xs[i] = sum;
    }
    for (int64_t i = 0; i < n; i++)
        if (xs[i] < least) least = xs[i];
    free(xs);
    return least;
}

static void histogram(int64_t n) {
    int64_t *digits = numbers(n);
    for (int64_t i = 0; i < n; i++) digits[i] = (i * 37 + 5) % 10;
    for (int64_t d = 0; d < 10; d++) {
        int64_t count = 0;
        for (int64_t i = 0; i < n; i++) count += digits[i] == d;
        printf("%s%" PRId64 "i64", d ? ", " : "[", count);
    }
    printf("]\n");
    free(digits);
}

static int32_t life(int64_t n, int64_t turns) {
    int32_t *board = malloc((size_t)(n * n) * sizeof *board), *next = malloc((size_t)(n * n) * sizeof *next), alive = 0;
    for (int64_t i = 0; i < n; i++)
        for (int64_t j = 0; j < n; j++) board[i * n + j] = (i * 31 + j * 17) % 7 < 3;
    for (int64_t t = 0; t < turns; t++) {
        for (int64_t i = 0; i < n; i++)
            for (int64_t j = 0; j < n; j++) {
                int32_t count = 0;
                for (int64_t y = -1; y <= 1; y++)
                    for (int64_t x = -1; x <= 1; x++)
                        if (x || y) count += board[(i + y + n) % n * n + (j + x + n) % n];
                next[i * n + j] = count == 3 || (count == 2 && board[i * n + j]);
            }
        int32_t *last = board;
        board = next;
        next = last;
    }
    for (int64_t i = 0; i < n * n; i++) alive += board[i];
    return alive;
}

static int64_t matrix(int64_t n) {
    int64_t *a = numbers(n * n), *b = numbers(n * n), *c = numbers(n * n), trace = 0;
    for (int64_t i = 0; i < n; i++)
        for (int64_t j = 0; j < n; j++) {
            a[i * n + j] = (i * 3 + j) % 11;
            b[i * n + j] = (i + j * 5) % 13;
        }
    for (int64_t i = 0; i < n; i++)
        for (int64_t j = 0; j < n; j++) {
            int64_t sum = 0;
            for (int64_t k = 0; k < n; k++) sum += a[i * n + k] * b[k * n + j];
            c[i * n + j] = sum;
        }
    for (int64_t i = 0; i < n; i++) trace += c[i * n + i];
    return trace;
}

static int64_t sort(int64_t n) {
    int64_t *a = numbers(n), sum = 0;
    for (int64_t i = 0; i < n; i++) a[i] = (i * 7919 + 13) % 10007;
    for (int64_t i = 0; i < n; i++) {
        int64_t x = a[i], at = i;
        for (; at > 0 && a[at - 1] > x; at--) a[at] = a[at - 1];
        a[at] = x;
    }
    for (int64_t i = 0; i < n; i++) sum += a[i] * i;
    free(a);
    return sum;
}

static int32_t in_place(int64_t n) {
    int32_t *a = calloc((size_t)(n ? n : 1), sizeof *a), seen;
    if (!a) exit(1);
    for (int64_t i = 0; i < 1000; i++) a[i * 97 % n] = (int32_t)i;
    seen = a[97];
    free(a);
    return seen;
}

static void counts(int64_t n) {
    int64_t count[10] = {0};
    for (int64_t i = 0; i < n; i++) count[(i * 37 + 5) % 10]++;
    for (int64_t d = 0; d < 10; d++) printf("%s%" PRId64 "i64", d ? ", " : "[", count[d]);
    printf("]\n");
}

/* Reads `[1, 2, ..]` and prints each with one more. */
static void words(void) {
    int64_t x, count = 0;
    int c = getchar();
    putchar('[');
    while (c != EOF && c != '\n' && scanf("%" SCNd64, &x) == 1) {
        printf("%s%" PRId64 "i64", count++ ? ", " : "", x + 1);
        c = getchar();
        if (c == ']') break;
    }
    printf("]\n");
}

int main(int count, char **word) {
    const char *name = count > 1 ? word[1] : "";
    int64_t n = count > 2 ? atoll(word[2]) : 0, turns = count > 3 ? atoll(word[3]) : 0;
    if (!strcmp(name, "map")) printf("%" PRId64 "i64\n", map_sum(n));
    else if (!strcmp(name, "dot")) printf("%" PRId64 "i64\n", dot(n));
    else if (!strcmp(name, "scan")) printf("%" PRId64 "i64\n", scan(n));
    else if (!strcmp(name, "histogram")) histogram(n);
    else if (!strcmp(name, "life")) printf("%" PRId32 "i32\n", life(n, turns));
    else if (!strcmp(name, "matrix")) printf("%" PRId64 "i64\n", matrix(n));
    else if (!strcmp(name, "sort")) printf("%" PRId64 "i64\n", sort(n));
    else if (!strcmp(name, "in_place")) printf("%" PRId32 "i32\n", in_place(n));
    else if (!strcmp(name, "counts")) counts(n);
    else if (!strcmp(name, "words")) words();
    else return 1;
    return 0;
}
