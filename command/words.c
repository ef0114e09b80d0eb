/* What the command is told: options, other words, and the files that they name. */
#define _XOPEN_SOURCE 700
#include "command.h"
#include <errno.h>
#include <fcntl.h>
#include <stdio.h>
#include <stdlib.h>
#include <string.h>
#include <sys/stat.h>
#include <unistd.h>

/* ---- options ---- */

static const struct {
    const char *name;
    enum option option;
} options[] = {
    {"--hex", HEX},
    {"--text", TEXT},
    {"--picture", PICTURE},
    {"--compilers", COMPILERS},
    {"--json", JSON},
    {"--image", IMAGE},
    {"--area", AREA},
    {"--copies", COPIES},
    {"--base", BASE},
    {"--hidden", HIDDEN},
    {"-o", OUT},
};

#define OPTIONS (sizeof options / sizeof *options)

/* Where the value of an option goes. */
static const char **value_of(words *to, enum option option)
{
    switch (option) {
    case IMAGE:
        return &to->image;
    case AREA:
        return &to->area;
    case COPIES:
        return &to->copies;
    case BASE:
        return &to->base;
    case HIDDEN:
        return &to->hidden;
    case OUT:
        return &to->out;
    default:
        return NULL;
    }
}

words read_words(int count, char **given, int known)
{
    words read = {0, NULL, NULL, NULL, NULL, NULL, NULL, 0, NULL};
    int options_end = 0, i;

    read.files = calloc((size_t)count + 1, sizeof *read.files);
    if (read.files == NULL)
        fail(NULL, "no memory left");
    for (i = 0; i < count; i++) {
        size_t option;
        const char **value;

        if (options_end || given[i][0] != '-' || given[i][1] == '\0') {
            read.files[read.count++] = given[i];
            continue;
        }
        if (strcmp(given[i], "--") == 0) {
            options_end = 1;
            continue;
        }
        for (option = 0; option < OPTIONS && strcmp(given[i], options[option].name) != 0; option++)
            ;
        if (option == OPTIONS || !(options[option].option & known))
            fail_at_word(NULL, "unknown option ", span_of(given[i]), "");
        read.given |= options[option].option;
        value = value_of(&read, options[option].option);
        if (value == NULL)
            continue;
        if (i + 1 == count)
            fail_at_word(NULL, "nothing after ", span_of(given[i]), "");
        if (*value != NULL)
            fail_at_word(NULL, "", span_of(given[i]), " twice");
        *value = given[++i];
    }
    if ((read.given & HEX) && (read.given & TEXT))
        fail(NULL, "--hex and --text: a file is one of the two");
    return read;
}

/* ---- files ---- */

bytes read_file(const char *path, place *where, size_t largest)
{
    int standard = strcmp(path, "-") == 0;
    bytes content = {NULL, 0, 0};
    FILE *file = standard ? stdin : fopen(path, "rb");
    int fault = errno;
    size_t taken;

    if (standard)
        add(&where->file, "standard input");
    else
        add_quoted(&where->file, span_of(path));
    if (file == NULL)
        fail(where, "%s (os error %d)%s", strerror(fault), fault,
             strchr(path, '(') == NULL ? ""
                                       : ": a signature's text is read from a file, or with --text "
                                         "from standard input");
    do {
        size_t room = largest + 1 - content.length;

        if (room > 65536)
            room = 65536;
        taken = fread(more(&content, room), 1, room, file);
        content.length += taken;
    } while (taken > 0 && content.length <= largest);
    if (ferror(file))
        fail(where, "%s (os error %d)", strerror(errno), errno);
    if (content.length > largest)
        fail(where, "over %zu bytes", largest);
    if (!standard)
        fclose(file);
    return content;
}

bytes read_bytes(const words *given, const char *path, size_t largest)
{
    place where = {{NULL, 0, 0}, 0, 0};
    bytes content = read_file(path, &where, largest);

    if (given->given & HEX) {
        bytes decoded = decode_hex(&where, span_of_bytes(&content));

        free(content.at);
        content = decoded;
    }
    free(where.file.at);
    return content;
}

/* The path of the file that is replaced: of a link, what it leads to. Gives the permissions that it
 * has, or -1 where there is no file. */
static int replaced_file(const place *where, const char *path, bytes *to)
{
    struct stat old;
    char *real;

    if (stat(path, &old) != 0) {
        if (errno != ENOENT)
            fail(where, "%s (os error %d)", strerror(errno), errno);
        if (lstat(path, &old) == 0)
            fail(where, "a link that leads nowhere");
        add(to, "%s", path);
        return -1;
    }
    if (!S_ISREG(old.st_mode))
        fail(where, "not a regular file");
    real = realpath(path, NULL);
    if (real == NULL)
        fail(where, "%s (os error %d)", strerror(errno), errno);
    add(to, "%s", real);
    free(real);
    return (int)(old.st_mode & 07777);
}

/* Opens a new file of a name that is free, beside the path. */
static int new_file(const place *where, const char *path, const char *name, bytes *to)
{
    int number, file = -1;

    for (number = 0; number < 100 && file < 0; number++) {
        to->length = 0;
        add(to, "%.*s.%s.%ld.%d.new", (int)(name - path), path, name, (long)getpid(), number);
        add_byte(to, 0);
        file = open((char *)to->at, O_WRONLY | O_CREAT | O_EXCL, 0666);
        if (file < 0 && errno != EEXIST)
            break;
    }
    if (file < 0)
        fail(where, "%s (os error %d)", strerror(errno), errno);
    return file;
}

/* Writes all of it, with these permissions unless they are -1, and syncs. */
static int write_all(int file, span content, int permissions)
{
    while (content.length > 0) {
        ssize_t count = write(file, content.at, content.length);

        if (count < 0 && errno == EINTR)
            continue;
        if (count < 0)
            return -1;
        content = without(content, (size_t)count);
    }
    if (permissions >= 0 && fchmod(file, (mode_t)permissions) != 0)
        return -1;
    return fsync(file);
}

/* Syncs the folder that a file is in: then its name is on the disk. */
static int sync_folder(const char *path, const char *name)
{
    bytes folder = {NULL, 0, 0};
    int file, status;

    add(&folder, "%.*s", (int)(name - path), name == path ? "" : path);
    if (folder.length == 0)
        add(&folder, ".");
    add_byte(&folder, 0);
    file = open((char *)folder.at, O_RDONLY);
    free(folder.at);
    if (file < 0)
        return -1;
    status = fsync(file);
    /* some file systems have no such call for folders */
    if (status != 0 && errno == EINVAL)
        status = 0;
    close(file);
    return status;
}

void write_file(const char *path, span content)
{
    place where = {{NULL, 0, 0}, 0, 0};
    bytes replaced = {NULL, 0, 0}, new_name = {NULL, 0, 0};
    const char *to, *name;
    int permissions, file, fault = 0;

    add_quoted(&where.file, span_of(path));
    permissions = replaced_file(&where, path, &replaced);
    add_byte(&replaced, 0);
    to = (char *)replaced.at;
    name = strrchr(to, '/') == NULL ? to : strrchr(to, '/') + 1;
    if (*name == '\0')
        fail(&where, "no file name");
    file = new_file(&where, to, name, &new_name);
    if (write_all(file, content, permissions) != 0)
        fault = errno;
    if (close(file) != 0 && fault == 0)
        fault = errno;
    if (fault == 0 && rename((char *)new_name.at, to) != 0)
        fault = errno;
    if (fault != 0)
        unlink((char *)new_name.at);
    else if (sync_folder(to, name) != 0)
        fault = errno;
    if (fault != 0)
        fail(&where, "%s (os error %d)", strerror(fault), fault);
    free(new_name.at);
    free(replaced.at);
    free(where.file.at);
}

uint64_t read_convention(const place *where, span word)
{
    static const char *const names[] = {"ppc64", "z", "aix", "ppc64b"};
    size_t i;

    for (i = 0; i < 4; i++)
        if (is(word, names[i]))
            return i + 1;
    fail_at_word(where, "", word, " is no convention: ppc64, z, aix or ppc64b");
    return 0;
}
