/* Installs the files of a package and their list, in one transaction; each answer is printed. */
#include "kagzuvis.h"
#include <string.h>

static int put(kagzuvis *kernel, unsigned process, const char *path, const char *text)
{
    int file = kagzuvis_open(kernel, process, path, KAGZUVIS_WRONLY | KAGZUVIS_CREAT);
    return file < 0 || kagzuvis_write(kernel, process, file, text, strlen(text)) < 0 || kagzuvis_close(kernel, process, file) < 0;
}

static int install(kagzuvis *kernel, unsigned process, void *folder)
{
    return kagzuvis_mkdir(kernel, process, folder) < 0 || put(kernel, process, "/editor/edit", "program")
        || put(kernel, process, "/editor/help", "keys") || put(kernel, process, "/editor/files", "edit\nhelp\n");
}

int main(int argc, char **argv)
{
    struct kagzuvis_options options = {.priorities = "00", .trace = stdout};
    kagzuvis *kernel = kagzuvis_start(argc > 1 ? argv[1] : "", &options);
    return kernel == NULL || kagzuvis_run(kernel, 1, install, "/editor", 9) != 0
        || kagzuvis_open(kernel, 2, "/editor/files", KAGZUVIS_RDONLY) < 0 || kagzuvis_stop(kernel, NULL) < 0;
}
