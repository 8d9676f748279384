# For the scripts that refuse allocations to a program, which source it.

# The faults that a test may end with behind `error: `, a want of memory or of a thread, as the standard library or one of the crates names it. A text of the test's own,
# which could stand for other faults too, is none of them.
wants='AllocError|AllocFailed \{ \.\. \}|Memory|Engine\(Memory\)|ThreadRefused|Threads\(ThreadRefused\)'

# make_refuser ROOM: ROOM/refuse.so stands in front of the C library. It counts the allocations and the starts of threads, with the allocations that these make,
# refuses the one of the number REFUSED, and leaves the file MARK. Of the starts of threads alone it refuses the one of the number REFUSED_START.
make_refuser() {
  cat > "$1/refuse.c" <<'END'
void *__libc_malloc(unsigned long);
void *__libc_calloc(unsigned long, unsigned long);
void *__libc_realloc(void *, unsigned long);
void *dlsym(void *, const char *);
char *getenv(const char *);
int *__errno_location(void);
long atol(const char *);
int creat(const char *, unsigned);
#define NEXT ((void *)-1)
#define EAGAIN 11
#define ENOMEM 12
static long asked, started;
static int is_number(const char *name, long *count) {
  char *said = getenv(name);
  if (!said || __atomic_add_fetch(count, 1, __ATOMIC_SEQ_CST) != atol(said)) return 0;
  creat(getenv("MARK"), 0600);
  *__errno_location() = ENOMEM;
  return 1;
}
static int is_refused(void) { return is_number("REFUSED", &asked); }
void *malloc(unsigned long size) { return is_refused() ? 0 : __libc_malloc(size); }
void *calloc(unsigned long count, unsigned long size) { return is_refused() ? 0 : __libc_calloc(count, size); }
void *realloc(void *place, unsigned long size) { return is_refused() ? 0 : __libc_realloc(place, size); }
int pthread_create(void *thread, const void *how, void *(*work)(void *), void *with) {
  int (*start)(void *, const void *, void *(*)(void *), void *) = dlsym(NEXT, "pthread_create");
  return is_refused() || is_number("REFUSED_START", &started) ? EAGAIN : start(thread, how, work, with);
}
END
  "$(dirname "$(rt doc)")/toolchain/bin/clang" --target=x86_64-unknown-linux-gnu -fuse-ld=lld -shared -fPIC -nostdlib -fno-builtin -o "$1/refuse.so" "$1/refuse.c"
}
