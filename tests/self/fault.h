/* The one fault that a program of tests/self has, which L1_FAULT names, if it names one. */
char *getenv(const char *name);
int strcmp(const char *a, const char *b);

static int has(const char *fault)
{
    static const char *named;
    if (!named && !(named = getenv("L1_FAULT")))
        named = "";
    return !strcmp(named, fault);
}
