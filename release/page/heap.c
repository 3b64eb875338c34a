// What Rattle's `Global` asks of the C library, for a WebAssembly module: a heap over memory.grow.
//
// Each block has 16 bytes before it, with its size. The free ones are a list in order of their places, and two
// that touch are joined. A block is cut from the smallest free one that has room. There are few of them.
typedef unsigned long word;
typedef unsigned char byte;

extern byte __heap_base;

// so many pages of 64 kB are there at most, since the memory is one of 32 bits
#define MOST 65535ul

struct block {
  word size; // of all of it, a multiple of 16
  struct block *next;
};
static struct block first; // of the list, and no block
static word end;           // of what was taken of the memory

void heap_free(void *place) {
  struct block *it = (struct block *)place - 1, *before = &first;
  while (before->next && before->next < it) before = before->next;
  it->next = before->next;
  before->next = it;
  if (it->next && (byte *)it + it->size == (byte *)it->next) {
    it->size += it->next->size;
    it->next = it->next->next;
  }
  if (before != &first && (byte *)before + before->size == (byte *)it) {
    before->size += it->size;
    before->next = it->next;
  }
}

// takes more of the memory, and puts it on the list
static int grow(word size) {
  if (!end) end = ((word)&__heap_base + 15) & ~15ul;
  word have = __builtin_wasm_memory_size(0), pages = (end + size + 65535) >> 16;
  if (pages > MOST) return 0;
  // of a memory of 32 bits the answer -1 has 32 bits
  if (pages > have && (int)__builtin_wasm_memory_grow(0, pages - have) == -1) return 0;
  struct block *it = (struct block *)end;
  it->size = (pages << 16) - end;
  end = pages << 16;
  heap_free(it + 1);
  return 1;
}

static struct block *best(word size) {
  struct block *found = 0;
  for (struct block *it = &first; it->next; it = it->next)
    if (it->next->size >= size && (!found || it->next->size < found->next->size)) found = it;
  return found;
}

void *heap_alloc(word bytes) {
  if (bytes > MOST << 16) return 0;
  word size = (bytes + 31) & ~15ul;
  struct block *before = best(size);
  if (!before && (!grow(size) || !(before = best(size)))) return 0;
  struct block *it = before->next;
  if (it->size - size < 64) {
    before->next = it->next;
  } else {
    it->size -= size;
    it = (struct block *)((byte *)it + it->size);
    it->size = size;
  }
  return it + 1;
}

void *heap_realloc(void *place, word kept, word bytes) {
  if (bytes <= ((struct block *)place - 1)->size - 16) return place;
  void *to = heap_alloc(bytes);
  if (!to) return 0;
  __builtin_memcpy(to, place, kept < bytes ? kept : bytes);
  heap_free(place);
  return to;
}

// room for what the page passes to a call
__attribute__((export_name("page_alloc"))) void *page_alloc(word bytes) { return heap_alloc(bytes); }
__attribute__((export_name("page_free"))) void page_free(void *place) { heap_free(place); }
