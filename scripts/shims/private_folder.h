// Opens a file once no other user can change where its name leads: mte_scripts/private_folder.py in C, for what runs inside a program.
//
// Each folder from / on is opened without following a link, and tested: it is root's or this process's user's, and others may not write to it
// unless it has the sticky bit, as /tmp has. A link on the way has to be root's or the user's too, and is followed by the same steps. The
// file itself is opened in the folder that was tested, and a link in its place is refused. Nothing here takes memory from malloc. One thread
// at a time may call it.
#pragma once
#ifndef _GNU_SOURCE
#define _GNU_SOURCE
#endif
#include <errno.h>
#include <fcntl.h>
#include <limits.h>
#include <string.h>
#include <sys/stat.h>
#include <sys/syscall.h>
#include <unistd.h>

enum { MOST_LINKS = 40, MOST_WAITING = 2 * PATH_MAX };
static const char *const CHANGEABLE = "others can change its folder, or one above it";

static int status_of(int file, struct stat *status) {
#ifdef SYS_newfstatat
  return syscall(SYS_newfstatat, file, "", status, AT_EMPTY_PATH);
#else
  return fstat(file, status);
#endif
}

static int look(int folder, const char *name) { return syscall(SYS_openat, folder, name, O_PATH | O_NOFOLLOW | O_CLOEXEC); }

static int is_anothers(const struct stat *status) { return status->st_uid && status->st_uid != geteuid(); }

// whether others can move or replace what is in a folder, or a link
static int is_changeable(const struct stat *status) {
  return is_anothers(status) || (S_ISDIR(status->st_mode) && status->st_mode & 022 && !(status->st_mode & S_ISVTX));
}

// `text`, a slash and `rest`; 0 where they are too long
static int join(char *to, const char *text, size_t length, const char *rest) {
  size_t more = strlen(rest);
  if (length + more + 2 > MOST_WAITING) return errno = ENAMETOOLONG, 0;
  memcpy(to, text, length), to[length] = '/';
  memcpy(to + length + 1, rest, more + 1);
  return 1;
}

// the next name of a path, which is moved on; 0 at its end, and -1 where the name is too long
static int next_name(const char **path, char name[NAME_MAX + 1]) {
  *path += strspn(*path, "/");
  size_t length = strcspn(*path, "/");
  if (length > NAME_MAX) return errno = ENAMETOOLONG, -1;
  memcpy(name, *path, length), name[length] = 0;
  *path += length;
  return length > 0;
}

// One step from a folder, which is closed: into a folder, or along a link, whose target is put before what is left of the path. The folder
// that is open then; -1 where there is none, with the reason in `wrong` or in errno.
static int step(int folder, const char *name, const char **path, char *other, const char **wrong) {
  char target[PATH_MAX];
  struct stat status;
  int entry = look(folder, name), next = -1;
  if (entry < 0) goto end;
  if (status_of(entry, &status)) goto end;
  if (is_changeable(&status)) *wrong = CHANGEABLE;
  else if (S_ISDIR(status.st_mode)) next = entry, entry = -1;
  else if (!S_ISLNK(status.st_mode)) errno = ENOTDIR;
  else {
    ssize_t length = syscall(SYS_readlinkat, entry, "", target, sizeof target);
    if (length > 0 && length < (ssize_t)sizeof target && join(other, target, length, *path)) {
      *path = other;
      next = target[0] == '/' ? look(AT_FDCWD, "/") : folder;
    }
  }
end:;
  int error = errno;
  if (entry >= 0) syscall(SYS_close, entry);
  if (next != folder) syscall(SYS_close, folder);
  errno = error;
  return next;
}

// The folder of a file's path, open, and the file's name in it; -1 where that can't be, with the reason in `wrong` or in errno.
static int open_folder_of(const char *path, const char **name, const char **wrong) {
  static char buffers[3][MOST_WAITING], at[PATH_MAX];
  const char *slash = strrchr(path, '/'), *waiting = buffers[2];
  char part[NAME_MAX + 1];
  int links = 0, more;
  *name = slash ? slash + 1 : path;
  if (!**name || !strcmp(*name, ".") || !strcmp(*name, "..")) return errno = EISDIR, -1;
  at[0] = 0;
  if (*path != '/' && syscall(SYS_getcwd, at, sizeof at) < 0) return -1;
  if (*path != '/' && *at != '/') return errno = ENOENT, -1;  // a folder outside this root
  if (!join(buffers[2], at, strlen(at), path)) return -1;
  *strrchr(buffers[2], '/') = 0;
  struct stat status;
  int folder = look(AT_FDCWD, "/");
  if (folder >= 0 && !status_of(folder, &status) && is_changeable(&status)) {
    syscall(SYS_close, folder);
    return *wrong = CHANGEABLE, -1;
  }
  while (folder >= 0 && (more = next_name(&waiting, part))) {
    const char *before = waiting;
    if (more > 0 && links <= MOST_LINKS) {
      folder = step(folder, part, &waiting, buffers[links % 2], wrong);
      if (waiting != before) links++;
    } else {
      syscall(SYS_close, folder);
      if (more > 0) errno = ELOOP;
      folder = -1;
    }
  }
  return folder;
}

// Opens a file for reading and writing. `how` may say O_CREAT and O_EXCL. -1 where that can't be, with the reason in `wrong` or in errno.
static int open_private(const char *path, int how, const char **wrong) {
  const char *name;
  *wrong = NULL;
  int folder = open_folder_of(path, &name, wrong);
  if (folder < 0) return -1;
  int file = syscall(SYS_openat, folder, name, how | O_RDWR | O_CLOEXEC | O_NOFOLLOW | O_NONBLOCK | O_NOCTTY, 0644), error = errno;
  syscall(SYS_close, folder);
  errno = error;
  return file;
}
