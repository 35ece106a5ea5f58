/* Loaded in front of a program by tests/real. It begins glibc's tracer, where that is asked for,
 * and then takes out of the environment what only one of the two runs has, so that the program asks
 * for the same blocks in both: traced, and under valgrind. It calls no getenv and no unsetenv,
 * since bash has its own. */
#include <mcheck.h>
#include <stdbool.h>
#include <string.h>

extern char **environ;

/* The variables of the tracer, and those that Debian's valgrind sets, which is a shell script. */
static const char *const taken_out[] = {
    "LD_PRELOAD",        "MALLOC_TRACE",    "GLIBCPP_FORCE_NEW",
    "GLIBCXX_FORCE_NEW", "LD_LIBRARY_PATH", "PWD",
};

static bool is_named(const char *variable, const char *name)
{
    size_t length = strlen(name);
    return strncmp(variable, name, length) == 0 && variable[length] == '=';
}

/* Not so in that shell script, which has to hand its variables on. */
static bool is_program(void)
{
    for (char **at = environ; *at; at++)
        if (is_named(*at, "MALLOC_TRACE")
            || (is_named(*at, "LD_PRELOAD") && strstr(*at, "vgpreload")))
            return true;
    return false;
}

static bool stays(const char *variable)
{
    for (size_t k = 0; k < sizeof taken_out / sizeof *taken_out; k++)
        if (is_named(variable, taken_out[k]))
            return false;
    return true;
}

__attribute__((constructor)) static void begin(void)
{
    if (!is_program())
        return;
    mtrace();
    char **to = environ;
    for (char **from = environ; *from; from++)
        if (stays(*from))
            *to++ = *from;
    *to = NULL;
}
