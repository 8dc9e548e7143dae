/* Runs a little code with a stack: it counts the steps of 3n + 1. */

int putchar(int c);

enum { PUSH, LOAD, STORE, ADD, MULTIPLY, HALVE, ODD, LESS, JUMP, JUMP_ZERO, STOP };

/* from n = variable 0: variable 1 counts the steps until n is 1 */
static const int code[] = {
    PUSH, 1, LOAD, 0, LESS, 0, JUMP_ZERO, 36,
    LOAD, 0, ODD, 0, JUMP_ZERO, 24,
    LOAD, 0, PUSH, 3, MULTIPLY, 0, PUSH, 1, JUMP, 38,
    LOAD, 0, HALVE, 0, STORE, 0, LOAD, 1, JUMP, 42, STOP, 0,
    STOP, 0,
    ADD, 0, JUMP, 48,
    PUSH, 1, ADD, 0, JUMP, 54,
    STORE, 0, LOAD, 1, JUMP, 42,
    STORE, 1, JUMP, 0,
};

int stack[16];
int variables[2];

void put_number(unsigned long n)
{
    if (n > 9)
        put_number(n / 10);
    putchar('0' + (int)(n % 10));
}

void run(void)
{
    int at = 0;
    int top = 0;

    for (;;) {
        int operand = code[at + 1];

        switch (code[at]) {
        case PUSH: stack[top++] = operand; break;
        case LOAD: stack[top++] = variables[operand]; break;
        case STORE: variables[operand] = stack[--top]; break;
        case ADD: top--; stack[top - 1] += stack[top]; break;
        case MULTIPLY: top--; stack[top - 1] *= stack[top]; break;
        case HALVE: stack[top - 1] /= 2; break;
        case ODD: stack[top - 1] &= 1; break;
        case LESS: top--; stack[top - 1] = stack[top - 1] < stack[top]; break;
        case JUMP: at = operand; continue;
        case JUMP_ZERO:
            if (!stack[--top]) {
                at = operand;
                continue;
            }
            break;
        case STOP: return;
        }
        at += 2;
    }
}

int main(void)
{
    unsigned long sum = 0;
    int n;

    for (n = 1; n < 40; n++) {
        variables[0] = n;
        variables[1] = 0;
        run();
        sum = sum * 7 + (unsigned long)variables[1];
    }
    put_number(sum);
    putchar('\n');
    return 0;
}
