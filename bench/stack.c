/* The most stack that grants_apply takes where keys share 255 bits, and what grants_check takes of the same store: the stack below is painted, and
 * looked at after the call. */
typedef __UINT8_TYPE__ uint8_t;
typedef __UINT32_TYPE__ uint32_t;
typedef __SIZE_TYPE__ size_t;
typedef __PTRDIFF_TYPE__ ptrdiff_t;

uint32_t grants_format(uint8_t *store, size_t store_len);
uint32_t grants_check(const uint8_t *store, size_t store_len);
uint32_t grants_apply(uint8_t *store, size_t store_len, uint32_t number, const uint8_t *batch, size_t batch_len, uint8_t answer[40]);
int printf(const char *, ...);
void *memset(void *, int, size_t);

enum { SLOTS = 1100, STORE = 24 + 128 * SLOTS, PAINTED = 1 << 20 };
static uint8_t store[STORE], batch[144], answer[40];

static void ask(uint8_t *a, uint8_t last, uint8_t value) {
    memset(a, 0, 72);
    a[0] = 72;
    a[4] = 1;
    a[39] = last;
    memset(a + 40, value, 32);
}

/* Of apply with a number, or with no batch of check. */
__attribute__((noinline)) static size_t depth(uint32_t number, size_t batch_len) {
    volatile uint8_t here = 0;
    volatile uint8_t *top = &here - 512;
    for (size_t i = 0; i < PAINTED; i++) top[-(ptrdiff_t)i] = 0x5A;
    uint32_t refused = batch_len ? grants_apply(store, STORE, number, batch, batch_len, answer) : grants_check(store, STORE);
    if (refused) {
        printf("refused: %u\n", refused);
        return PAINTED;
    }
    size_t kept = 0;
    while (kept < PAINTED && top[(ptrdiff_t)kept - PAINTED + 1] == 0x5A) kept++;
    return PAINTED - kept + 512;
}

int main(void) {
    if (grants_format(store, STORE)) return 1;
    ask(batch, 0, 1);
    ask(batch + 72, 1, 1);
    size_t grown = depth(1, 144);
    ask(batch, 0, 2);
    size_t stepped = depth(2, 72);
    size_t checked = depth(0, 0);
    size_t most = grown < stepped ? stepped : grown;
    if (most < checked) most = checked;
    printf("stack apply-grows-x86-64 %zu\nstack apply-steps-x86-64 %zu\nstack check-x86-64 %zu\n", grown, stepped, checked);
    return most >= 256 * 1024;
}
