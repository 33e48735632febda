/* libfdisk on the disk in a file: each call opens it, does its work and closes it, with no sync. Below 0: an error. */
#define _POSIX_C_SOURCE 200809L
#include <errno.h>
#include <libfdisk/libfdisk.h>
#include <stdio.h>

typedef int work_on(struct fdisk_context *disk);

static int with_disk(const char *path, int read_only, work_on *work)
{
    struct fdisk_context *disk = fdisk_new_context();
    if (!disk)
        return -ENOMEM;
    fdisk_disable_dialogs(disk, 1);
    int result = fdisk_assign_device(disk, path, read_only);
    if (result == 0) {
        result = work(disk);
        int closed = fdisk_deassign_device(disk, 1);
        if (result >= 0 && closed < 0)
            result = closed;
    }
    fdisk_unref_context(disk);
    return result;
}

static int list(struct fdisk_context *disk)
{
    struct fdisk_table *table = NULL;
    int result = fdisk_get_partitions(disk, &table);
    if (result == 0)
        result = (int)fdisk_table_get_nents(table);
    fdisk_unref_table(table);
    return result;
}

/* A partition of two blocks in the first slot and at the first block that libfdisk chooses. */
static int add(struct fdisk_context *disk)
{
    struct fdisk_partition *new = fdisk_new_partition();
    if (!new)
        return -ENOMEM;
    fdisk_partition_start_follow_default(new, 1);
    fdisk_partition_partno_follow_default(new, 1);
    fdisk_partition_set_size(new, 2);
    int result = fdisk_add_partition(disk, new, NULL);
    fdisk_unref_partition(new);
    return result < 0 ? result : fdisk_write_disklabel(disk);
}

/* 128 partitions of one block with names and unique GUIDs, as sfdisk reads them; how long the text is. */
static size_t written(char *text, size_t size)
{
    size_t at = (size_t)snprintf(text, size, "label: gpt\nfirst-lba: 34\n");
    for (int number = 1; number <= 128; number++)
        at += (size_t)snprintf(text + at, size - at, "start=%d, size=1, name=p%d, uuid=6E0B6FAB-1C46-4B6B-8F25-%012X\n", 33 + number, number,
                               (unsigned)number);
    return at;
}

static int apply(struct fdisk_context *disk, FILE *text)
{
    struct fdisk_script *script = fdisk_new_script(disk);
    if (!script)
        return -ENOMEM;
    int result = fdisk_script_read_file(script, text);
    if (result == 0)
        result = fdisk_apply_script(disk, script);
    fdisk_unref_script(script);
    return result < 0 ? result : fdisk_write_disklabel(disk);
}

static int build(struct fdisk_context *disk)
{
    static char text[1 << 14];
    static size_t length;
    if (length == 0)
        length = written(text, sizeof text);
    FILE *file = fmemopen(text, length, "r");
    if (!file)
        return -errno;
    int result = apply(disk, file);
    fclose(file);
    return result;
}

/* How many partitions the disk has, each taken into a table. */
int peer_list(const char *path)
{
    return with_disk(path, 1, list);
}

int peer_add(const char *path)
{
    return with_disk(path, 0, add);
}

int peer_build(const char *path)
{
    return with_disk(path, 0, build);
}

/* Writes the label anew, both copies, from the one that is good. */
int peer_repair(const char *path)
{
    return with_disk(path, 0, fdisk_write_disklabel);
}
