/* The heap of the WebAssembly module: malloc, realloc and free over the module's memory, up to a limit that the page
   sets, and the three functions by which the proved code asks for memory. */
typedef unsigned long u64;

/* A block lies after a header, and has 16 bytes or a power of two above. Freed blocks of one size form a list. */
struct header { u64 class; u64 unused; };
enum { SMALLEST = 16, CLASSES = 48, PAGE_BITS = 16, PAGES_AT_ONCE = 256 };

extern unsigned char __heap_base;
static u64 top, end, limit = 1ul << 30;
static void *freed[CLASSES];

/* The most bytes that the whole memory of the module may take. The page sets them before its first call. */
void heap_limit(u64 bytes) { limit = bytes; }

/* The bytes that the module has used so far, at the most: its stack, its data, and all blocks. */
u64 heap_used(void) { return top ? top : (u64)&__heap_base; }

static u64 size_of(u64 class) { return (u64)SMALLEST << class; }

static u64 class_for(u64 bytes) {
    u64 class = 0;
    while (size_of(class) < bytes) class++;
    return class;
}

/* Makes the memory reach up to an address, if the limit and the host allow this. */
static int reaches(u64 address) {
    if (!top) {
        top = ((u64)&__heap_base + 15) & ~15ul;
        end = __builtin_wasm_memory_size(0) << PAGE_BITS;
    }
    if (address > limit) return 0;
    if (address <= end) return 1;
    u64 pages = (address - end + (1ul << PAGE_BITS) - 1) >> PAGE_BITS;
    if (pages < PAGES_AT_ONCE && end + ((u64)PAGES_AT_ONCE << PAGE_BITS) <= limit) pages = PAGES_AT_ONCE;
    if (__builtin_wasm_memory_grow(0, pages) == (u64)-1) return 0;
    end = __builtin_wasm_memory_size(0) << PAGE_BITS;
    return 1;
}

void *malloc(u64 bytes) {
    if (bytes > 1ul << 40) return 0;
    u64 class = class_for(bytes);
    void *block = freed[class];
    if (block) {
        freed[class] = *(void **)block;
        return block;
    }
    if (!reaches(top)) return 0;
    u64 after = top + sizeof(struct header) + size_of(class);
    if (!reaches(after)) return 0;
    struct header *header = (struct header *)top;
    header->class = class;
    top = after;
    return header + 1;
}

void free(void *block) {
    if (!block) return;
    u64 class = ((struct header *)block - 1)->class;
    *(void **)block = freed[class];
    freed[class] = block;
}

void *realloc(void *block, u64 bytes) {
    u64 size = size_of(((struct header *)block - 1)->class);
    if (bytes <= size && (size == SMALLEST || bytes > size / 4)) return block;
    void *moved = malloc(bytes);
    if (!moved) return 0;
    __builtin_memcpy(moved, block, bytes < size ? bytes : size);
    free(block);
    return moved;
}

/* The answer to a request for memory: whether there is some, and its address. The proved code takes no address 0. */
struct tried { u64 ok; u64 at; };

static struct tried tried(void *block) {
    struct tried answer = { block != 0, block ? (u64)block : 16 };
    return answer;
}

/* Every block is aligned to 16 bytes, which suffices for all types of the tool. A larger alignment is refused. */
struct tried rattle_alloc(u64 bytes, u64 align) {
    return tried(align > 16 ? 0 : malloc(bytes ? bytes : align));
}

struct tried rattle_realloc(void *block, u64 kept, u64 bytes, u64 align) {
    (void)kept;
    return tried(align > 16 ? 0 : realloc(block, bytes ? bytes : align));
}

void rattle_dealloc(void *block) { free(block); }
