int main(void)
{
    int x = getchar();

    while (x < 100)
        x = 3 * x + 1;
    return x;
}
