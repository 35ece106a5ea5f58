// Loads a plugin, calls it, and unloads it.
#include <dlfcn.h>
#include <stdlib.h>
#include <string.h>

int main(int count, char **words)
{
    void *plugin = dlopen(words[count - 1], RTLD_NOW);
    void *found = plugin ? dlsym(plugin, "begin") : NULL;
    void (*begin)(void);
    if (found == NULL)
        return 1;
    memcpy(&begin, &found, sizeof begin);
    begin();
    char *name = strdup("plugin"); // planted 7 in 1: main
    int odd = name == NULL;
    dlclose(plugin);
    return odd;
}
