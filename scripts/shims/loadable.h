// Whether a program can be followed: whether this machine's glibc would load the library into it, and nothing ends it
// for that. Asked before the program is run, by nothing but calls that a loader makes too.
#ifndef LOADABLE_H
#define LOADABLE_H
#include <elf.h>
#include <errno.h>
#include <fcntl.h>
#include <limits.h>
#include <link.h>
#include <string.h>
#include <sys/auxv.h>
#include <sys/stat.h>
#include <sys/xattr.h>
#include <unistd.h>
#include "stream.h"

extern const char __ehdr_start[] __attribute__((visibility("hidden")));  // of this object

// why not; notes.py has the words
enum { LOADABLE, STATIC, OTHER_LIBC, OTHER_MACHINE, SET_ID, CAPABLE, UNREADABLE, UNDER_SECCOMP, SCRIPT };
enum { INTERPRETER = 256, DEEPEST = 5 };  // bytes of an interpreter's path; scripts that are read by scripts

// ---- this process

// its number as the reader sees it, since /proc is the reader's, also in a namespace of processes; filters of system
// calls that it is under
struct own { pid_t process; long filters; };

// Takes a line of /proc/self/status. Linux before 5.9 has no number of filters, and the mode stands for it.
static void take_status(struct own *own, const char *line) {
  static const char *const names[] = {"Pid:", "Seccomp:", "Seccomp_filters:"};
  for (int k = 0; k < 3; k++) {
    size_t length = strlen(names[k]);
    if (strncmp(line, names[k], length)) continue;
    long number = strtol(line + length, NULL, 10);
    if (k) own->filters = number; else own->process = number;
  }
}

// Whether /proc has this process. Little stack is taken: it may be a handler's.
static int read_own(struct own *own) {
  char read_in[256], line[40];
  size_t length = 0;
  ssize_t number;
  int opened = open("/proc/self/status", O_RDONLY | O_CLOEXEC);
  *own = (struct own){0, 0};
  if (opened < 0) return 0;
  while ((number = read(opened, read_in, sizeof read_in)) > 0)
    for (ssize_t i = 0; i < number; i++) {
      if (read_in[i] != '\n') {
        if (length < sizeof line - 1) line[length++] = read_in[i];
        continue;
      }
      line[length] = 0, length = 0, take_status(own, line);
    }
  close(opened);
  return own->process > 0;
}

// The path of the loader that loaded this process; null where it has none.
static const char *own_loader(void) {
  const ElfW(Phdr) *headers = (const void *)getauxval(AT_PHDR), *interpreter = NULL;
  uintptr_t bias = 0;
  for (unsigned long k = 0; headers && k < getauxval(AT_PHNUM); k++) {
    if (headers[k].p_type == PT_PHDR) bias = (uintptr_t)headers - headers[k].p_vaddr;
    if (headers[k].p_type == PT_INTERP) interpreter = &headers[k];
  }
  return interpreter ? (const char *)(bias + interpreter->p_vaddr) : NULL;
}

// ---- a program's file

static int is_own_loader(const struct stat *other) {
  struct stat own;
  const char *path = own_loader();
  return path && !stat(path, &own) && own.st_dev == other->st_dev && own.st_ino == other->st_ino;
}

// Of an object for this kind of processor whether it names this machine's loader. That itself loads the program of its
// first word.
static int why_not_object(int opened, const struct stat *status, const ElfW(Ehdr) *head) {
  ElfW(Phdr) header;
  char path[INTERPRETER];
  struct stat loader;
  for (int k = 0; k < head->e_phnum; k++) {
    off_t at = head->e_phoff + k * (off_t)head->e_phentsize;
    if (pread(opened, &header, sizeof header, at) != sizeof header) return UNREADABLE;
    if (header.p_type != PT_INTERP) continue;
    size_t length = header.p_filesz < sizeof path ? header.p_filesz : sizeof path - 1;
    if (pread(opened, path, length, header.p_offset) != (ssize_t)length) return UNREADABLE;
    path[length] = 0;
    return stat(path, &loader) || !is_own_loader(&loader) ? OTHER_LIBC : LOADABLE;
  }
  return is_own_loader(status) ? LOADABLE : STATIC;
}

// Whether the kernel gives the program rights that the process has not: then the loader takes no library.
static int why_not_rights(int opened, const struct stat *status) {
  int is_set = (status->st_mode & S_ISUID && status->st_uid != getuid()) ||
               ((status->st_mode & (S_ISGID | S_IXGRP)) == (S_ISGID | S_IXGRP) && status->st_gid != getgid());
  if (is_set) return SET_ID;
  return getuid() && fgetxattr(opened, "security.capability", NULL, 0) > 0 ? CAPABLE : LOADABLE;
}

// Of an open file; of a script the path of what reads it is left in PATH.
static int why_not_file(int opened, char *path) {
  struct stat status;
  union { ElfW(Ehdr) head; char text[INTERPRETER]; } begin;
  ssize_t length = fstat(opened, &status) || !S_ISREG(status.st_mode) ? 0 : pread(opened, &begin, sizeof begin - 1, 0);
  if (length > 2 && !memcmp(begin.text, "#!", 2)) {
    begin.text[length] = 0;
    char *from = begin.text + 2 + strspn(begin.text + 2, " \t");
    from[strcspn(from, " \t\n")] = 0, strcpy(path, from);
    return SCRIPT;
  }
  const ElfW(Ehdr) *own = (const void *)__ehdr_start, *head = &begin.head;
  if (length < (ssize_t)sizeof *head || memcmp(head->e_ident, ELFMAG, SELFMAG)) return LOADABLE;  // a shell may read it
  if (own->e_machine != head->e_machine || own->e_ident[EI_CLASS] != head->e_ident[EI_CLASS]) return OTHER_MACHINE;
  int why = why_not_rights(opened, &status);
  return why ? why : why_not_object(opened, &status, head);
}

// Why the program at a path can't be followed; LOADABLE too where there is none.
static int why_not(int folder, const char *path, int flags) {
  char next[INTERPRETER];
  for (int depth = 0; depth < DEEPEST; depth++) {
    int is_open = flags & AT_EMPTY_PATH && !*path;
    int opened = is_open ? folder : openat(folder, path, O_RDONLY | O_CLOEXEC | O_NONBLOCK | O_NOCTTY);
    if (opened < 0) return errno == EACCES || errno == EMFILE || errno == ENFILE ? UNREADABLE : LOADABLE;
    int why = why_not_file(opened, next);
    if (!is_open) close(opened);
    if (why != SCRIPT) return why;
    folder = AT_FDCWD, path = next, flags = 0;
  }
  return LOADABLE;
}

// ---- those that are not followed

static const char *name_in(const char *path) { return strrchr(path, '/') ? strrchr(path, '/') + 1 : path; }

// Notes a program that is not followed: its place from 1 on, one more than there are where there is no room.
static int note_unfollowed(struct stream *stream, int why, const char *path) {
  uint64_t key = why;
  const char *name = name_in(path);
  for (const char *at = name; *at; at++) key = (key ^ (unsigned char)*at) * 0x9E3779B97F4A7C15ULL;
  for (int k = 0; k < UNFOLLOWED; k++) {
    struct unfollowed *each = &stream->unfollowed[k];
    uint64_t none = 0;
    if (__atomic_compare_exchange_n(&each->key, &none, key | 1, 0, __ATOMIC_ACQ_REL, __ATOMIC_RELAXED))
      strncpy(each->name, name, sizeof each->name - 1), each->why = why;
    if (each->key != (key | 1)) continue;
    __atomic_fetch_add(&each->number, 1, __ATOMIC_RELAXED);
    return k + 1;
  }
  __atomic_fetch_add(&stream->more_unfollowed, 1, __ATOMIC_RELAXED);
  return UNFOLLOWED + 1;
}
#endif
