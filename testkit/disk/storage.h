/* The disk below the engine of hunkravy_file.h: a storage that is the file `name` of the disk and its journal. */
#ifndef STORAGE_H
#define STORAGE_H

#include "disk.h"
#include "hunkravy_file.h"

/* The storage is freed with the file that is opened in it. */
struct hunkravy_storage disk_storage(struct disk *disk, const char *name);

#endif
