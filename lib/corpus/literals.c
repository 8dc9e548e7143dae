/* Texts side by side, with escapes in hexadecimal, and constants in base 2. */
int putchar(int c);

int main(void)
{
    const char *text = "a\x62" "c\144" "e\x66\x67\0h";
    int k, total = 0b101 + '\x41' + '\0' + '\377' + 017 + 0XFFu;

    for (k = 0; text[k]; k++)
        putchar(text[k]);
    putchar("\\x41"[1]);
    putchar('\?');
    putchar('\n');
    return total & 255;
}
