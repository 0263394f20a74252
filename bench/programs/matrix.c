/* A product of matrices of 240 rows and columns, whole numbers of 32 bits. */
#include "check.h"

enum { N = 240 };
static int a[N][N], b[N][N], c[N][N];

void _start(void) {
    for (int i = 0; i < N; i++)
        for (int j = 0; j < N; j++)
            a[i][j] = i - j, b[i][j] = i + 2 * j;
    for (int i = 0; i < N; i++)
        for (int j = 0; j < N; j++) {
            int sum = 0;
            for (int k = 0; k < N; k++)
                sum += a[i][k] * b[k][j];
            c[i][j] = sum;
        }
    unsigned trace = 0;
    for (int i = 0; i < N; i++)
        trace += c[i][i];
    check(trace == 276475200u);
}
