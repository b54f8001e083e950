# 1 "ring.c"
typedef unsigned char byte;
typedef unsigned int size;

struct ring {
    byte data[64];
    size head, tail;
};

struct ring rings[2] = { { { 0 }, 0, 0 }, { { 'a', 'b', }, 0, 2 } };
struct ring *current = &rings[1];

int is_empty(const struct ring *r) { return r->head == r->tail; }

int put(struct ring *r, byte b)
{
    size next = (r->tail + 1) & 63u;

    if (next == r->head)
        return 0;
    r->data[r->tail] = b;
    r->tail = next;
    return 1;
}

int get(struct ring *r, byte *b)
{
    int there = is_empty(r) ? 0 : 1;

    if (there) {
        *b = r->data[r->head];
        r->head = r->head + 1 & 0x3f;
    }
    return there;
}

size fill(struct ring *r, byte (*source)(void *), void *from)
{
    size count = 0;
    byte b;

    for (;;) {
        b = source(from);
        if (!put(r, b)) break;
        else { ++count; continue; }
    }
    return count;
}
