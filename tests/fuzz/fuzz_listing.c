/* The listing program under a fuzzer. Its main, and what it calls to read, to write and to see its surroundings, are renamed, so that it
   reads a capture from memory and writes its listing there, in pieces of all sizes; the listing has to be the model's, and the status that
   the program tells on descriptor 3 the one that goes with it.

   An input is the capture. If its last byte is above 247 it is taken off, and the capture is what stands before it 2, 4, 8 ..
   256 times, so that a small file reaches the limit of 65,536 bytes. */
#include <stdint.h>
#include <stdio.h>
#include <stdlib.h>
#include <string.h>

enum { CAPTURE_MOST = 65536 + 64, LISTING_MOST = 2000000 };

int listing_main(void);
long listing_read(int file, uint8_t *bytes, size_t length);
long listing_write(int file, const uint8_t *bytes, size_t length);
size_t model_listing(const uint8_t *capture, size_t bytes, uint8_t *out, size_t out_bytes);

static uint8_t capture[CAPTURE_MOST], listing[LISTING_MOST], due[LISTING_MOST];
static size_t capture_bytes, taken, listed;
static uint8_t told;

/* What the program asks of its surroundings: standard input is a pipe, it was started with an argument, and descriptor 3 is open. */
enum { NO_SUCH = -1, NO_ROOM = -2 };
long listing_lseek(int file, long offset, int whence);
long listing_rattle_arg(size_t i, uint8_t *bytes, size_t room);
int listing_open(const char *path, int flags, ...);
int listing_close(int file);

long listing_lseek(int file, long offset, int whence) { return file == 0 && offset == 0 && whence == SEEK_CUR ? -1 : (abort(), 0); }

/* Argument i of the program's, and how many bytes that is. */
long listing_rattle_arg(size_t i, uint8_t *bytes, size_t room) {
    static const char *const arguments[] = {"listing", "status"};
    if (i >= sizeof arguments / sizeof arguments[0]) return NO_SUCH;
    size_t length = strlen(arguments[i]);
    if (length > room) return NO_ROOM;
    memcpy(bytes, arguments[i], length);
    return (long)length;
}

int listing_open(const char *path, int flags, ...) { return flags && strcmp(path, "/dev/fd/3") == 0 ? 3 : (abort(), 0); }

int listing_close(int file) { return file == 3 ? 0 : (abort(), 0); }

/* The next piece of what is left: the whole of small ones, and parts of all sizes of large ones. */
static size_t piece(size_t wanted, size_t there) {
    size_t most = wanted < there ? wanted : there;
    size_t part = 1 + (capture_bytes * 37 + taken + listed) % 5000;
    return part < most ? part : most;
}

/* The program's standard input. */
long listing_read(int file, uint8_t *bytes, size_t length) {
    if (file != 0) abort();
    size_t count = piece(length, capture_bytes - taken);
    memcpy(bytes, capture + taken, count);
    taken += count;
    return (long)count;
}

/* The program's standard output, and its status. */
long listing_write(int file, const uint8_t *bytes, size_t length) {
    if (file == 3 && length == 1 && told == 0) return told = *bytes, 1;
    if (file != 1) abort();
    size_t count = piece(length, LISTING_MOST - listed);
    memcpy(listing + listed, bytes, count);
    listed += count;
    return (long)count;
}

/* Makes the capture of an input. */
static void take_capture(const uint8_t *data, size_t bytes) {
    size_t times = 1;
    if (bytes && data[bytes - 1] > 247) times = (size_t)1 << (data[--bytes] - 247);
    capture_bytes = 0;
    for (; times; times--) {
        size_t room = CAPTURE_MOST - capture_bytes, count = bytes < room ? bytes : room;
        if (count) memcpy(capture + capture_bytes, data, count);
        capture_bytes += count;
    }
}

/* Prints text on one line as a string of C. */
static void print_text(const char *what, const uint8_t *bytes, size_t length) {
    fprintf(stderr, " %s=\"", what);
    for (size_t i = 0; i < length; i++)
        if (bytes[i] > 31 && bytes[i] < 127 && bytes[i] != '"' && bytes[i] != '\\') fputc(bytes[i], stderr);
        else fprintf(stderr, "\\%03o", bytes[i]);
    fputc('"', stderr);
}

/* The status of a listing: 0 where its last line is its `end`. */
static uint8_t status_due(size_t bytes) {
    while (bytes > 1 && due[bytes - 2] != '\n') bytes--;
    return bytes && due[bytes - 1] == 'e' ? '0' : '1';
}

int LLVMFuzzerTestOneInput(const uint8_t *data, size_t bytes);

int LLVMFuzzerTestOneInput(const uint8_t *data, size_t bytes) {
    take_capture(data, bytes);
    taken = listed = told = 0;
    int status = listing_main();
    size_t due_bytes = model_listing(capture, capture_bytes, due, sizeof due);
    if (status == 0 && told == status_due(due_bytes) && listed == due_bytes && memcmp(listing, due, listed) == 0) return 0;
    fprintf(stderr, "WRONG listing status=%d told=%c", status, told);
    print_text("capture", capture, capture_bytes);
    print_text("expected", due, due_bytes < sizeof due ? due_bytes : sizeof due);
    print_text("got", listing, listed);
    fputc('\n', stderr);
    abort();
}
