/* Installs the files of a package and their list on a mounted tree, in one transaction. */
#define _POSIX_C_SOURCE 200809L
#include "kagzuvis_mount.h"
#include <stdio.h>
#include <sys/stat.h>

static int put(const struct kagzuvis_mount_view *tree, const char *name, const char *text)
{
    char path[4200];
    FILE *file = snprintf(path, sizeof path, "%s/editor/%s", tree->path, name) < 0 ? NULL : fopen(path, "w");
    return file == NULL || (fputs(text, file) < 0) | (fclose(file) != 0);
}

static int install(const struct kagzuvis_mount_view *tree, void *folder)
{
    return mkdirat(tree->directory, folder, 0777) != 0 || put(tree, "edit", "program") || put(tree, "help", "keys")
        || put(tree, "files", "edit\nhelp\n");
}

int main(int argc, char **argv)
{
    return argc < 2 || kagzuvis_mount_run(argv[1], &(struct kagzuvis_mount_options){0, 9}, install, "editor", NULL) != 0;
}
