/* export PACK SLOT SHEET [replace]: writes the sheet of the design in a slot of a pack, of the form of examples/filedisk.h, to the file SHEET. Not proved
 * but for the keeper's own calls; tested by tests/sheets.sh. PACK is only read. The sheet goes to a new file, which gets its name once it is whole and
 * safe; a SHEET that is there is left alone, unless the word says that it is to be replaced, and it is a sheet. On a refusal or a failure: a line that
 * says what to do, and status 1; then nothing of it is left. */
#define _POSIX_C_SOURCE 200809L
#include <fcntl.h>
#include <unistd.h>
#include "packs.h"
#include "sheets.h"

/* The reason is the system's own. */
static int failed(const char *path, const char *what)
{
    fprintf(stderr, "export: %s: %s: %s\n", path, what, strerror(errno));
    return 1;
}

static int put_bytes(int file, const uint8_t *bytes, size_t count)
{
    while (count > 0) {
        const ssize_t put = write(file, bytes, count);
        if (put < 0 && errno == EINTR)
            continue;
        if (put <= 0)
            return -1;
        bytes += put, count -= (size_t)put;
    }
    return 0;
}

static int synced(int file)
{
    while (fsync(file) != 0)
        if (errno != EINTR)
            return -1;
    return 0;
}

/* A new file with these bytes, safe on the device. */
static int made(const char *path, const uint8_t *bytes, size_t count)
{
    const int file = open(path, O_WRONLY | O_CREAT | O_EXCL | O_CLOEXEC, 0644);
    if (file < 0)
        return -1;
    const int bad = put_bytes(file, bytes, count) != 0 || synced(file) != 0;
    const int why = errno;
    const int closed = close(file);
    if (bad)
        errno = why;
    if (!bad && closed == 0)
        return 0;
    const int last = errno;
    unlink(path);
    errno = last;
    return -1;
}

/* The new file's name becomes the sheet's. Without replacing, a file of that name stays: by a link, or, where a file system has none, by a look. */
static int named(const char *new, const char *path, int replaces)
{
    if (replaces)
        return rename(new, path);
    if (link(new, path) == 0)
        return unlink(new);
    if (errno != EPERM && errno != EOPNOTSUPP && errno != ENOSYS)
        return -1;
    errno = EEXIST;
    return access(path, F_OK) == 0 ? -1 : rename(new, path);
}

static int put_sheet(const char *path, const uint8_t *bytes, size_t count, int replaces)
{
    char new[4096];
    if (snprintf(new, sizeof new, "%s.part-%ld", path, (long)getpid()) >= (int)sizeof new)
        return complain("export", path, "its name is too long");
    if (made(new, bytes, count) != 0)
        return failed(path, "it cannot be written");
    if (named(new, path, replaces) != 0) {
        const int why = errno;
        unlink(new);
        errno = why;
        return why == EEXIST ? complain("export", path, "it is there already: name another file, or say REPLACE=1") : failed(path, "it cannot be named");
    }
    return filedisk_folder(path) == 0 ? 0 : failed(path, "it is written, but its folder cannot be synced: a power cut may lose it");
}

/* A sheet may be replaced, and what is not there yet; no other file. */
static int may_replace(const char *path)
{
    Sheet sheet;
    size_t count, where;
    if (access(path, F_OK) != 0)
        return 1;
    uint8_t *bytes = read_sheet("export", path, &count);
    if (bytes == NULL)
        return 0;
    const char *wrong = take_apart(bytes, count, &sheet, &where);
    free(bytes);
    if (wrong != NULL)
        complain("export", path, "it is there and is no sheet: it is left alone");
    return wrong == NULL;
}

/* The slots that have a design. */
static void name_designs(const Keeper *keeper)
{
    int none = 1;
    for (size_t slot = 0; slot < keeper->sizes.slots; slot++)
        if (keeper->numbers[slot] != 0) {
            fprintf(stderr, "%s slot %zu has design %u", none ? ":" : ",", slot, (unsigned)keeper->numbers[slot]);
            none = 0;
        }
    fputs(none ? ": no slot has a design\n" : "\n", stderr);
}

static int refused(const char *pack, const Keeper *keeper, uint32_t slot, uint32_t refusal)
{
    if (refusal == KEEPER_NO_RANGE) {
        fprintf(stderr, "export: %s: there is no slot %u: its slots are 0 to %zu\n", pack, (unsigned)slot, keeper->sizes.slots - 1);
    } else if (refusal == KEEPER_NO_DESIGN) {
        fprintf(stderr, "export: %s: slot %u is empty", pack, (unsigned)slot);
        name_designs(keeper);
    } else {
        complain("export", pack, keeper_text(refusal));
    }
    return 1;
}

int main(int count, char **words)
{
    FileDisk disk;
    Keeper keeper;
    uint32_t slot;
    const int replaces = count == 5 && strcmp(words[4], "replace") == 0;
    if ((count != 4 && !replaces) || !is_number(words[2], &slot)) {
        fprintf(stderr, "usage: export PACK SLOT SHEET [replace]; SLOT is a number\n");
        return 1;
    }
    if (read_pack("export", words[1], &disk, &keeper) != 0 || restart_pack("export", words[1], &disk, &keeper) != 0)
        return 1;
    const size_t most = KEEPER_SHEET_BYTES(keeper.sizes.pages, keeper.sizes.words);
    uint8_t *sheet = malloc(most);
    if (sheet == NULL)
        return complain("export", words[1], "no memory for the sheet");
    const KeeperAnswer answer = keeper_easy_export(&keeper, slot, sheet, most);
    if (answer.refusal != KEEPER_DONE)
        return refused(words[1], &keeper, slot, answer.refusal);
    if ((replaces && !may_replace(words[3])) || put_sheet(words[3], sheet, answer.result, replaces) != 0)
        return 1;
    printf("design %u of slot %u of %s is in %s: %u bytes\n", (unsigned)keeper.numbers[slot], (unsigned)slot, words[1], words[3], (unsigned)answer.result);
    return 0;
}
