/* Writes what a program counted of itself, as it ends: LLVM's raw profile, in its version 10 (compiler-rt, profile/InstrProfData.inc).
 * clang puts the counters, a record for each function, and the functions' names into sections of their own, whose ends the linker names.
 * It stands in the place of compiler-rt, which the kit hasn't, and includes nothing. The file is the one that PROFILE names. */

typedef unsigned long word;

/* The version of the module's records, with the bit that says that the counters are of LLVM's own code and not of a front end's. */
extern const word __llvm_profile_raw_version;
/* A module that counts asks for this name, so that what writes the counters is linked. */
int __llvm_profile_runtime;

#define SECTION(name) extern char __start_##name[] __attribute__((visibility("hidden"))), __stop_##name[] __attribute__((visibility("hidden")))
SECTION(__llvm_prf_data);
SECTION(__llvm_prf_cnts);
SECTION(__llvm_prf_names);

/* The bytes of a function's record: the hashes of its name and its form, where its counters are, and what is unused here. */
#define RECORD 64
#define MAGIC ((word)255 << 56 | (word)'l' << 48 | (word)'p' << 40 | (word)'r' << 32 | (word)'o' << 24 | (word)'f' << 16 | (word)'r' << 8 | 129)
/* The last of the kinds of values that a profile could have; this one has none. */
#define LAST_KIND 2

extern char *getenv(const char *name);
extern int creat(const char *path, unsigned mode);
extern long write(int file, const void *bytes, word count);

static void put(int file, const char *from, word count) {
    while (count > 0) {
        long put = write(file, from, count);
        if (put <= 0)
            return;
        from += put;
        count -= put;
    }
}

/* Where `main` returns, this is called last. */
__attribute__((destructor)) static void write_profile(void) {
    word data = (word)__start___llvm_prf_data, counters = (word)__start___llvm_prf_cnts, names = (word)__start___llvm_prf_names;
    word data_size = (word)__stop___llvm_prf_data - data, names_size = (word)__stop___llvm_prf_names - names;
    word counters_size = (word)__stop___llvm_prf_cnts - counters;
    word head[16] = {MAGIC, __llvm_profile_raw_version, 0, data_size / RECORD, 0, counters_size / sizeof(word), 0, 0, 0, names_size,
                     counters - data, 0, names, 0, 0, LAST_KIND};
    static const char zeros[sizeof(word)];
    const char *path = getenv("PROFILE");
    int file = path ? creat(path, 0600) : -1;
    if (file < 0)
        return;
    put(file, (const char *)head, sizeof head);
    put(file, (const char *)data, data_size);
    put(file, (const char *)counters, counters_size);
    put(file, (const char *)names, names_size);
    put(file, zeros, -names_size % sizeof(word));
}

/* A program that ends at once calls this, which stands before the C library's own. */
void _exit(int status) {
    write_profile();
    __asm__ volatile("syscall" : : "a"(231), "D"(status) : "rcx", "r11", "memory");
    __builtin_unreachable();
}
