/*
 * The functions that compiled code of the toolchain calls for the error of a call that has failed, over the C library's.
 * tools/generated puts them into the assembly text of a program, where nothing outside can call them.
 */
int *__errno_location(void);

int rattle_errno(void)
{
    return *__errno_location();
}

void rattle_set_errno(int error)
{
    *__errno_location() = error;
}
