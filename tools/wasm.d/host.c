// What the program `words` asks of its machine: arguments, a sheet on standard input, room for what it writes. Here all of it is memory of the module, which
// the page reads and writes. And the one function of the compiler's own library that products of 128 bits need.

typedef long long i64;
typedef unsigned long long u64;
typedef unsigned __int128 u128;
typedef unsigned char byte;

enum { SHEET = 8193, ARGUMENT = 4096, SAID = 2 << 20, FAULT = 4096 };
enum { NO_FILE = 2, NO_SPACE = 28, NO_SEEK = 29 };

// The module gives the function to others, under its name.
#define EXPORT(name) __attribute__((export_name(#name)))

static byte sheet[SHEET], argument[ARGUMENT], said[SAID], fault[FAULT];
static i64 argument_length, sheet_length, sheet_at, said_length, fault_length;
static int status, error, is_too_long;

int main_words(void);

EXPORT(words_sheet) byte *words_sheet(void) { return sheet; }
EXPORT(words_argument) byte *words_argument(void) { return argument; }
EXPORT(words_said) byte *words_said(void) { return said; }
EXPORT(words_fault) byte *words_fault(void) { return fault; }
EXPORT(words_fault_length) int words_fault_length(void) { return (int)fault_length; }
EXPORT(words_status) int words_status(void) { return status; }

// Runs `words [ARGUMENT] -` with the sheet as its standard input; of no argument the length is -1. Returns the length of what it writes to standard output, or
// -1 if a length, or what it writes, is beyond its room.
EXPORT(words) int words(int of_argument, int of_sheet) {
    if (of_argument < -1 || of_argument > ARGUMENT || of_sheet < 0 || of_sheet > SHEET) return -1;
    argument_length = of_argument, sheet_length = of_sheet;
    sheet_at = said_length = fault_length = error = is_too_long = 0;
    status = main_words();
    return is_too_long ? -1 : (int)said_length;
}

static void copy(byte *to, const byte *from, i64 length) {
    for (i64 i = 0; i < length; i++) to[i] = from[i];
}

// Argument 0 is the program's name, here empty, the last one "-". Of an argument that is not there -1 is said, of one without enough room -2.
i64 rattle_arg(i64 number, byte *to, i64 room) {
    i64 last = argument_length < 0 ? 1 : 2, length = number == 0 ? 0 : number == last ? 1 : argument_length;
    if (number < 0 || number > last) return -1;
    copy(to, number == last ? (const byte *)"-" : argument, length < room ? length : room);
    return length <= room ? length : -2;
}

static i64 add(byte *to, i64 *length, i64 room, const byte *from, i64 more) {
    if (more > room - *length) {
        is_too_long = 1, error = NO_SPACE;
        return -1;
    }
    copy(to + *length, from, more);
    *length += more;
    return more;
}

i64 write(int file, const byte *from, i64 length) {
    return file == 1 ? add(said, &said_length, SAID, from, length) : add(fault, &fault_length, FAULT, from, length);
}
i64 __write(int file, const byte *from, i64 length) { return write(file, from, length); }

i64 read(int file, byte *to, i64 room) {
    i64 length = sheet_length - sheet_at;
    if (length > room) length = room;
    copy(to, sheet + sheet_at, length);
    sheet_at += length;
    return length;
}

i64 lseek(int file, i64 at, int from) { return error = NO_SEEK, -1; }
int open(const byte *name, int flags, ...) { return error = NO_FILE, -1; }
int close(int file) { return 0; }
void rattle_set_errno(int number) { error = number; }
int rattle_errno(void) { return error; }
int __xpg_strerror_r(int number, byte *to, i64 room) {
    if (room > 0) to[0] = 0;
    return 0;
}
i64 __sysv_signal(int number, i64 handler) { return 0; }

// A program for x86-64 asks its processor first whether it has what the program was compiled for. Here it was compiled for WebAssembly.
const void *__x86_get_cpuid_feature_leaf(int leaf) {
    static const unsigned all[8] = {-1, -1, -1, -1, -1, -1, -1, -1};
    return all;
}

static u128 product(u64 a, u64 b) {
    u64 low = 0xffffffff, al = a & low, ah = a >> 32, bl = b & low, bh = b >> 32;
    u64 middle = (al * bl >> 32) + (al * bh & low) + (ah * bl & low);
    u64 high = ah * bh + (al * bh >> 32) + (ah * bl >> 32) + (middle >> 32);
    return (u128)high << 64 | (al * bl & low) | middle << 32;
}

u128 __multi3(u128 a, u128 b) {
    u64 al = (u64)a, ah = (u64)(a >> 64), bl = (u64)b, bh = (u64)(b >> 64);
    return product(al, bl) + ((u128)(al * bh + ah * bl) << 64);
}
