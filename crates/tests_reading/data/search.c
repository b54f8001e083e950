# 1 "search.c"
int find(const long *a, int n, long key)
{
    int low = 0, high = n, middle;

    while (low < high) {
        middle = low + (high - low) / 2;
        if (a[middle] < key)
            low = middle + 1;
        else if (a[middle] > key)
            high = middle;
        else
            return middle;
    }
    return -1;
}

void sort(long a[], int n)
{
    int i, j;

    for (i = 1; i < n; i++) {
        long x = a[i];
        for (j = i - 1; j >= 0 && a[j] > x; --j)
            a[j + 1] = a[j];
        a[j + 1] = x;
    }
}

int main(void)
{
    long a[4];
    int (*by)(const long *, int, long);

    a[0] = 3l; a[1] = -1; a[2] = 1 << 4 | 2; a[3] = ~0 ^ 'x';
    sort(a, 4);
    by = find;
    return (*by)(a, (int)(sizeof(long [4]) / sizeof(long)), 3) >= 0 ? 0 : 1;
}
