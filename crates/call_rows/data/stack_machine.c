/* Reads a program for a machine with a stack, and runs it. Each byte is an operation, and a number in decimal digits is
   put on the stack; blanks do nothing.

     + - * / %   take two numbers, and put the result
     <           takes two numbers, and puts 1 where the first is less, else 0
     a .. z      puts a variable
     =a          takes a number into a variable
     [ .. ]      takes a number, and runs what stands within where it is not 0; then the same again
     .           takes a number, and writes it on a line
     ,           takes a number, and writes it as a byte
     #           ends the program with the number taken as its status */

int getchar(void);
int putchar(int c);
void exit(int status);

enum { MOST_CODE = 1000, MOST_STACK = 100 };

char code[MOST_CODE];
int length;
long stack[MOST_STACK];
int depth;
long variables[26];

void push(long n)
{
    if (depth == MOST_STACK)
        exit(100);
    stack[depth++] = n;
}

long pop(void)
{
    if (depth == 0)
        exit(101);
    return stack[--depth];
}

void put_number(long n)
{
    if (n < 0) {
        putchar('-');
        n = -n;
    }
    if (n > 9)
        put_number(n / 10);
    putchar('0' + n % 10);
}

/* The place of the bracket that belongs to the one at a place: behind it (1), or before it (-1). */
int matching(int at, int way)
{
    int open = 0;

    do {
        switch (code[at]) {
        case '[':
            open++;
            break;
        case ']':
            open--;
            break;
        default:
            break;
        }
        at += way;
    } while (open != 0);
    return at - way;
}

/* Does the operation at a place, and gives the place of the next. */
int step(int at)
{
    long right;
    int c = code[at];

    switch (c) {
    case '+':
        right = pop();
        push(pop() + right);
        break;
    case '-':
        right = pop();
        push(pop() - right);
        break;
    case '*':
        right = pop();
        push(pop() * right);
        break;
    case '/':
        right = pop();
        push(pop() / right);
        break;
    case '%':
        right = pop();
        push(pop() % right);
        break;
    case '<':
        right = pop();
        push(pop() < right);
        break;
    case '=':
        variables[code[at + 1] - 'a'] = pop();
        return at + 2;
    case '[':
        if (pop() == 0)
            return matching(at, 1) + 1;
        break;
    case ']':
        return matching(at, -1);
    case '.':
        put_number(pop());
        putchar('\n');
        break;
    case ',':
        putchar((int)pop());
        break;
    case '#':
        exit((int)pop());
        break;
    default:
        if (c >= '0' && c <= '9') {
            long n = 0;

            while (code[at] >= '0' && code[at] <= '9')
                n = n * 10 + (code[at++] - '0');
            push(n);
            return at;
        }
        if (c >= 'a' && c <= 'z')
            push(variables[c - 'a']);
    }
    return at + 1;
}

int main(void)
{
    int at = 0;
    int c;

    while ((c = getchar()) != -1 && length < MOST_CODE - 1)
        code[length++] = c;
    while (at < length)
        at = step(at);
    return 0;
}
