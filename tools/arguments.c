/*
 * The function that compiled code of the toolchain calls for the arguments of a program, over those that the C library gives to main.
 * tools/generated puts it into the assembly text of a program that reads its arguments.
 */
typedef __SIZE_TYPE__ size;

/* the main of the crates */
int program(void);

static size count;
static char **words;

int main(int given, char **at)
{
    count = (size)given;
    words = at;
    return program();
}

/* Copies the bytes of an argument to an area, and returns how many they are: -1 where there is none, -2 where they have no room. */
long rattle_arg(size number, char *area, size room)
{
    if (number >= count)
        return -1;
    const char *word = words[number];
    size length = 0;
    for (; word[length] != 0; length++) {
        if (length == room)
            return -2;
        area[length] = word[length];
    }
    return (long)length;
}
