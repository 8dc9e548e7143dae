/* Sorts numbers by exchange within parts, and by merging, and compares both. */

int putchar(int c);

int first[1500];
int second[1500];
int spare[1500];

void put_number(unsigned long n)
{
    if (n > 9)
        put_number(n / 10);
    putchar('0' + (int)(n % 10));
}

void sort_parts(int *a, int low, int high)
{
    int middle = a[(low + high) / 2];
    int i = low;
    int j = high;

    while (i <= j) {
        while (a[i] < middle)
            i++;
        while (middle < a[j])
            j--;
        if (i <= j) {
            int t = a[i];

            a[i] = a[j];
            a[j] = t;
            i++;
            j--;
        }
    }
    if (low < j)
        sort_parts(a, low, j);
    if (i < high)
        sort_parts(a, i, high);
}

void merge(int *a, int low, int middle, int high)
{
    int i = low;
    int j = middle;
    int k;

    for (k = low; k < high; k++)
        if (i < middle && (j >= high || a[i] <= a[j]))
            spare[k] = a[i++];
        else
            spare[k] = a[j++];
    for (k = low; k < high; k++)
        a[k] = spare[k];
}

void sort_merging(int *a, int low, int high)
{
    int middle = (low + high) / 2;

    if (high - low < 2)
        return;
    sort_merging(a, low, middle);
    sort_merging(a, middle, high);
    merge(a, low, middle, high);
}

int main(void)
{
    unsigned state = 7;
    unsigned long sum = 0;
    int i;

    for (i = 0; i < 1500; i++) {
        state = state * 1664525u + 1013904223u;
        first[i] = (int)(state >> 8) - 8000000;
        second[i] = first[i];
    }
    sort_parts(first, 0, 1499);
    sort_merging(second, 0, 1500);
    for (i = 0; i < 1500; i++) {
        if (first[i] != second[i])
            return 1;
        sum = sum * 31 + (unsigned long)(first[i] + 9000000);
    }
    put_number(sum);
    putchar('\n');
    return 0;
}
