// The proved code as an x86-64 program of its own, for a machine that cannot link it. It answers each request on standard input by 32 bytes on
// standard output. A request is a byte (0 a message, 1 a leaf, 2 an inner node), the number of bytes (4, little-endian), and the bytes.
typedef unsigned char u8;
typedef unsigned long usize;

unsigned grants_sha256(const u8 *bytes, usize length, u8 *digest);
unsigned grants_leaf_hash(const u8 *grant, u8 *digest);
unsigned grants_inner_hash(const u8 *left, const u8 *right, u8 *digest);

enum { READ = 0, WRITE = 1, EXIT = 60 };

static long call(long number, long a, void *b, usize c) {
    long answer;
    __asm__ volatile("syscall" : "=a"(answer) : "a"(number), "D"(a), "S"(b), "d"(c) : "rcx", "r11", "memory");
    return answer;
}

static void finish(long status) {
    for (;;) call(EXIT, status, 0, 0);
}

// Input may come in parts; its end between two requests is the end of the work.
static void get(u8 *bytes, usize length, int between) {
    for (usize done = 0; done < length;) {
        long n = call(READ, 0, bytes + done, length - done);
        if (n <= 0) finish(n < 0 || done || !between);
        done += n;
    }
}

static u8 bytes[1 << 20];

void serve(void) {
    for (;;) {
        u8 head[5], digest[32];
        get(head, 5, 1);
        usize length = head[1] | head[2] << 8 | head[3] << 16 | (usize)head[4] << 24;
        if (length > sizeof bytes) finish(2);
        get(bytes, length, 0);
        unsigned code = head[0] == 0 ? grants_sha256(bytes, length, digest)
            : head[0] == 1 ? grants_leaf_hash(bytes, digest)
                           : grants_inner_hash(bytes, bytes + 32, digest);
        if (code != 0 || call(WRITE, 1, digest, 32) != 32) finish(3);
    }
}

__asm__(".globl _start\n_start: xor %ebp, %ebp\nand $-16, %rsp\ncall serve\n");
