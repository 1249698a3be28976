/* Linked into the programs of a release, so that they run over glibc 2.28 (2018) and later. It calls the functions that newer
 * versions of glibc gave another name or another place by the names that all have. tools/release compiles it. */
#include <cpuid.h>
#include <stddef.h>
#include <stdint.h>
#include <sys/syscall.h>
#include <unistd.h>

typedef int start(int, char **, char **);
typedef void initialize(int, char **, char **);

#define HIDDEN __attribute__((visibility("hidden")))

extern initialize *const __init_array_start[] HIDDEN, *const __init_array_end[] HIDDEN;
int old_start(start *, int, char **, initialize *, void (*)(void), void (*)(void), void *);
__asm__(".symver old_start, __libc_start_main@GLIBC_2.2.5");

/* Before glibc 2.34 a program itself called what is to be done before main. */
static void prepare(int count, char **words, char **variables) {
  for (initialize *const *each = __init_array_start; each < __init_array_end; each++)
    (*each)(count, words, variables);
}

HIDDEN int __libc_start_main(start *main, int count, char **words, initialize *init, void (*fini)(void), void (*at_end)(void),
                             void *stack) {
  (void)init;
  return old_start(main, count, words, prepare, fini, at_end, stack);
}

/* Since glibc 2.30. */
HIDDEN ssize_t getdents64(int folder, void *room, size_t size) { return syscall(SYS_getdents64, folder, room, size); }

/* Since glibc 2.33. Of the processor's features those of the level x86-64-v2 count, so the program uses none beyond them. */
struct features {
  unsigned int present[4], active[4]; /* of EAX, EBX, ECX and EDX */
};

#define V2_OF_1 (1u << 0 | 1u << 9 | 1u << 13 | 1u << 19 | 1u << 20 | 1u << 23) /* SSE3 to SSE4.2, CMPXCHG16B, POPCNT */
#define V2_OF_80000001 1u                                                      /* LAHF and SAHF */

static const struct features *features_of(struct features *found, unsigned int leaf, unsigned int wanted) {
  unsigned int a, b, c = 0, d = 0;
  if (__get_cpuid(leaf, &a, &b, &c, &d)) {
    found->present[2] = found->active[2] = c & wanted;
    found->present[3] = found->active[3] = d;
  }
  return found;
}

HIDDEN const struct features *__x86_get_cpuid_feature_leaf(unsigned int number) {
  static struct features first, extended, none;
  if (number == 0) return features_of(&first, 1, V2_OF_1);
  if (number == 2) return features_of(&extended, 0x80000001u, V2_OF_80000001);
  return &none;
}
