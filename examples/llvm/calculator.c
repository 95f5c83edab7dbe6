// Pointers to functions, in a table and as an argument.
typedef long (*operation)(long, long);

static long plus(long a, long b)
{
    return a + b;
}

static long times(long a, long b)
{
    return a * b;
}

static const operation operations[] = {plus, times};

long calculate(int which, long a, long b)
{
    return operations[which](a, b);
}

long folded(operation combine, const long *numbers, int count, long first)
{
    while (count--)
        first = combine(first, *numbers++);
    return first;
}
