/* Preloaded by bench/growths.sh. Counts how often the program's own code asks malloc and realloc for memory, and refuses it
   one of these: REFUSED=N is the Nth, from 1 (0: none), and with FURTHER=1 every later one too. What the C library asks for
   itself is given. COUNTED=FILE: there their number is written when the program ends. */
#define _GNU_SOURCE
#include <errno.h>
#include <link.h>
#include <stdatomic.h>
#include <stdint.h>
#include <stdio.h>
#include <stdlib.h>
#include <sys/syscall.h>
#include <unistd.h>

extern void *__libc_malloc(size_t);
extern void *__libc_realloc(void *, size_t);

static uintptr_t first, behind;   /* the program's own code */
static atomic_ulong asked;
static unsigned long refused;
static int further;

static int take_code(struct dl_phdr_info *info, size_t size, void *unused) {
  (void)size, (void)unused;
  for (int i = 0; i < info->dlpi_phnum; i++) {
    const ElfW(Phdr) *part = &info->dlpi_phdr[i];
    if (part->p_type == PT_LOAD && (part->p_flags & PF_X)) {
      first = info->dlpi_addr + part->p_vaddr;
      behind = first + part->p_memsz;
    }
  }
  return 1;   /* the program comes first: no more */
}

static unsigned long number(const char *name) {
  const char *text = getenv(name);
  return text ? strtoul(text, 0, 10) : 0;
}

__attribute__((constructor)) static void begin(void) {
  refused = number("REFUSED");
  further = number("FURTHER") != 0;
  dl_iterate_phdr(take_code, 0);
}

__attribute__((destructor)) static void end(void) {
  const char *name = getenv("COUNTED");
  FILE *file = name ? fopen(name, "w") : 0;
  if (file) {
    fprintf(file, "%lu\n", atomic_load(&asked));
    fclose(file);
  }
}

/* The program ends by this, which calls no destructor. */
void _exit(int status) {
  end();
  for (;;) syscall(SYS_exit_group, status);
}

static int is_refused(const void *caller) {
  if ((uintptr_t)caller < first || (uintptr_t)caller >= behind) return 0;
  unsigned long at = atomic_fetch_add(&asked, 1) + 1;
  if (refused == 0 || (at != refused && !(further && at > refused))) return 0;
  errno = ENOMEM;
  return 1;
}

void *malloc(size_t size) { return is_refused(__builtin_return_address(0)) ? 0 : __libc_malloc(size); }

void *realloc(void *block, size_t size) {
  return is_refused(__builtin_return_address(0)) ? 0 : __libc_realloc(block, size);
}
