/* The file `served` of a store's folder, which tells at which socket the store is served. */
#ifndef REGTXD_SERVED_FILE_H
#define REGTXD_SERVED_FILE_H

#include <sys/types.h>

struct served_file {
    dev_t device;
    ino_t file; /* 0: there is no file that is to be removed */
};

/* Writes the path of a listening socket, from the root on, and LF into the file of this folder.
   Whoever may enter the folder may read it. A failure is told, and ends nothing. Without a folder,
   which is NULL then, this does nothing. */
void write_served_file(struct served_file *served_file, const char *folder, int listener);

/* Removes the file, if this broker wrote it and it is there still. */
void remove_served_file(struct served_file *served_file, const char *folder);

#endif
